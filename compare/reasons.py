"""Why an accepted frame is not canonical, by the words that the dumper prints (document 02, M-110), in the order in which they are looked for:
the first that holds is given. ./look and the laboratory's report say what each means."""
MEANINGS = {
    'leftover': 'the address field has octets left over beyond its whole addresses',
    'marks': 'it is marked neither as a command nor as a response',
    'tail': 'octets follow where its kind of frame has none',
    'fixed': 'bits are set that nothing reads and that are written as zeros',
}
