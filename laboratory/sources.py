"""What was checked, by digests: the sources and whether they are as committed, and the Rust crate as it was published."""
import fnmatch
import hashlib
import os
import stat
import subprocess

from command import shown

# The files of the published crate ax25 0.4.0 that the comparison compiles, as they were when the port was begun. They stand here, and not
# only in the list beside them, so that a changed file is found though the list was changed with it.
CRATE = 'compare/ax25-0.4.0'
PUBLISHED = {
    'src/frame.rs': '2f4438908af9e3d6c579bd5a24a4e40ae70b090867cd6e02339b5d7df4be9073',
    'src/lib.rs': 'bdb9549699ebce67307e2827bc3dfe06c184cea3bd8f9f0cc3c47c8d794ffdc2',
}


def digest_of(path):
    """SHA-256 of a file, in hex. None where it can't be read."""
    digest = hashlib.sha256()
    try:
        with open(path, 'rb') as file:
            for piece in iter(lambda: file.read(1 << 20), b''):
                digest.update(piece)
    except OSError:
        return None
    return digest.hexdigest()


class Git:
    """The repository whose top the folder is. What it says of the tree is worked out from the commit and from the files, because git's own
    list can be told to look away from a file."""

    def __init__(self, root):
        self.root = root
        # Another user's clone is read too; and no variable leads to another repository.
        self.environment = {name: value for name, value in os.environ.items() if not name.startswith('GIT_')}
        self.why_not = self.problem()

    def run(self, *words):
        return subprocess.run(['git', '-c', 'safe.directory=*', '-C', self.root, *words], capture_output=True, env=self.environment)

    def problem(self):
        """Why git can't say what the commit is; None where it can."""
        if not os.path.lexists(os.path.join(self.root, '.git')):
            return 'the tree is no git repository'
        try:
            top = self.run('rev-parse', '--show-toplevel')
        except OSError:
            return 'there is no git on this host'
        if top.returncode or not os.path.samefile(top.stdout.rstrip(b'\n'), self.root):
            return 'git does not take the tree for a repository: ' + ' '.join(top.stderr.decode('utf-8', 'replace').split())
        if self.run('rev-parse', '--verify', 'HEAD').returncode:
            return 'nothing is committed in it'
        return None

    def fields(self, *words):
        done = self.run(*words)
        done.check_returncode()
        return [field for field in done.stdout.split(b'\0') if field]

    def commit(self):
        return self.run('rev-parse', 'HEAD').stdout.decode().strip()

    def tracked(self):
        return set(self.fields('ls-files', '-z'))

    def committed(self):
        """Every file of the commit: its mode and the name of its content."""
        entries = [entry.split(b'\t', 1) for entry in self.fields('ls-tree', '-r', '-z', '--full-tree', 'HEAD')]
        return {path: (about.split()[0].decode(), about.split()[2].decode()) for about, path in entries}

    def untracked(self):
        """What the tree's own lists do not ignore, whatever else this host's user ignores."""
        return set(self.fields('ls-files', '-z', '--others', '--exclude-per-directory=.gitignore'))

    def changes(self):
        """How the tree departs from the commit: paths, each with a word."""
        committed, tracked = self.committed(), self.tracked()
        found = {path: 'untracked' for path in self.untracked()}
        found.update({path: 'added' for path in tracked - set(committed)})
        for path, (mode, name) in committed.items():
            state = content_of(os.path.join(os.fsencode(self.root), path))
            if state is None:
                found[path] = 'missing'
            elif state[0] != mode or blob(state[1], len(name)) != name:
                found[path] = 'changed'
        return found


def content_of(path):
    """A file's mode and content as git would store them; None where there is no such file."""
    try:
        about = os.lstat(path)
        if stat.S_ISLNK(about.st_mode):
            return '120000', os.readlink(path)
        with open(path, 'rb') as file:
            return '100755' if about.st_mode & stat.S_IXUSR else '100644', file.read()
    except OSError:
        return None


def blob(content, length):
    """The name that git gives to content, by the sum of which the repository's names are that long."""
    return hashlib.new('sha1' if length == 40 else 'sha256', b'blob %d\0' % len(content) + content).hexdigest()


def ignored(root):
    """The patterns of .gitignore, each by its parts: for paths from the top (/NAME, or with a slash within) or for names anywhere (NAME), for
    folders alone where they end in a slash, and against an earlier pattern where they begin with an exclamation mark."""
    patterns = []
    with open(os.path.join(root, '.gitignore'), 'rb') as file:
        for line in file.read().split(b'\n'):
            line = line.strip()
            if not line or line.startswith(b'#'):
                continue
            against, path = line.startswith(b'!'), line.removeprefix(b'!')
            parts = path.strip(b'/').split(b'/')
            if b'**' in path or b'\\' in path:
                raise ValueError(f'.gitignore: {line.decode()!r} is a pattern that is not understood here')
            patterns.append((parts, path.startswith(b'/') or len(parts) > 1, path.endswith(b'/'), against))
    return patterns


def is_ignored(patterns, path, folder):
    """The last pattern that fits decides. What stands in a folder that is ignored is not asked about."""
    names, found = path.split(b'/'), False
    for parts, from_top, folders, against in patterns:
        own = names if from_top else names[-1:]
        if len(own) == len(parts) and (folder or not folders) and all(map(fnmatch.fnmatchcase, own, parts)):
            found = not against
    return found


def every_file(root):
    """Every file but git's own and those that .gitignore names, for a tree without git."""
    patterns, found = ignored(root), set()
    for folder, folders, files in os.walk(os.fsencode(root)):
        below = os.path.relpath(folder, os.fsencode(root))

        def kept(names, are_folders):
            paths = {name: os.path.normpath(os.path.join(below, name)) for name in names}
            return {name: path for name, path in paths.items() if path != b'.git' and not is_ignored(patterns, path, are_folders)}

        linked = [name for name in folders if os.path.islink(os.path.join(folder, name))]
        folders[:] = kept([name for name in folders if name not in linked], True)
        found.update(kept(files + linked, False).values())
    return found


def list_line(path, digest):
    """As sha256sum writes it, so that `sha256sum -c` reads the list."""
    plain = path.replace(b'\\', b'\\\\').replace(b'\n', b'\\n').replace(b'\r', b'\\r')
    return (b'\\' if plain != path else b'') + digest.encode() + b'  ./' + plain + b'\n'


def source_list(root, paths):
    lines = []
    for path in sorted(paths):
        content = content_of(os.path.join(os.fsencode(root), path))
        if content is not None:
            lines.append(list_line(path, hashlib.sha256(os.fsencode(content[1])).hexdigest()))
    return b''.join(lines)


def sources(root):
    """The list of the sources with their digests, and what the report says of them."""
    git = Git(root)
    listed = source_list(root, every_file(root) if git.why_not else git.tracked())
    changes = {} if git.why_not else git.changes()
    return listed, {
        'sha256': hashlib.sha256(listed).hexdigest(),
        'files': listed.count(b'\n'),
        'commit': None if git.why_not else git.commit(),
        'as_committed': None if git.why_not else not changes,
        'why_unknown': git.why_not,
        'changed': [{'file': shown(path), 'how': how} for path, how in sorted(changes.items())],
    }


def rust_crate(root):
    """The crate's files as they are now, and which of them are not as published."""
    folder = os.path.join(root, CRATE)
    found = {os.path.relpath(os.path.join(at, name), folder) for at, _, names in os.walk(os.path.join(folder, 'src')) for name in names}
    now = {name: digest_of(os.path.join(folder, name)) for name in sorted(found | set(PUBLISHED))}
    return {
        'name': 'ax25 0.4.0',
        'files': {shown(name): digest for name, digest in now.items()},
        'as_published': now == PUBLISHED,
        'departs': [shown(name) for name, digest in now.items() if digest != PUBLISHED.get(name)],
    }
