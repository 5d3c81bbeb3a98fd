"""What a run does with the files of its folders, read from what `strace -f` wrote of its calls, and the order that these must have.

With this order a crash at any moment leaves of a folder no index, the empty one or the whole one, as far as the system does what
its calls promise: what was synced stays, and a rename is one step. The script crash_calls.py runs the program and prints the verdicts.
"""
import ast
import json
import posixpath
import re
from collections import namedtuple

META, UNFINISHED = 'meta.json', '.unfinished'
ENDINGS = 'fieldnorm', 'fast', 'term', 'idx', 'pos', 'store'
SEGMENT_FILE = re.compile(r'([0-9a-f]{32})\.(?:%s|\d+\.del)' % '|'.join(ENDINGS))

CHECKS = {
    'made': 'each file of a segment is made with O_CREAT and O_EXCL',
    'synced': 'each file of a segment is written whole, and synced before it is closed',
    'replaced': f'{META} comes by a rename of {UNFINISHED} alone',
    'unfinished': f'{UNFINISHED} is new, and synced before its rename',
    'named': 'the folder is synced between the last write of a file and the rename of the meta that names it',
    'last': 'no file of a segment is made or written after the meta that names the segment',
    'end': 'the folder is synced between the last rename and the end',
    'whole': 'nothing else changes a file, and the folder has what was written',
}


class Unreadable(Exception):
    """The trace has something that can't be followed."""


# ---- from the lines of a trace to steps

# `plain` is what stands between the brackets without the strings; each string has the descriptor before it, and whether it was cut
Call = namedtuple('Call', 'name plain strings result')
# `what` is open (for writing), write, sync, close, rename or other; `more` the flags, the bytes, the new path or the call's name
Step = namedtuple('Step', 'what path more')

CALL = re.compile(r'(\w+)\((.*)\)\s+= (-?\d+|0x[0-9a-f]+)(?: .*)?')
STRING = re.compile(r'(?:(AT_FDCWD|\d+), )?"((?:[^"\\]|\\.)*)"(\.\.\.)?')
CUT = '<unfinished ...>'
OPENS = {'open', 'openat', 'openat2', 'creat'}
FOR_WRITING = re.compile(r'O_WRONLY|O_RDWR|O_CREAT|O_TRUNC|O_APPEND')
# calls that change no file
QUIET = set('''access faccessat faccessat2 stat lstat fstat newfstatat statx statfs fstatfs readlink readlinkat getcwd chdir execve
    read pread64 readv preadv preadv2 lseek getdents getdents64 fadvise64 readahead flock poll ppoll select pselect6 ioctl fcntl
    epoll_create1 epoll_ctl epoll_wait epoll_pwait fdatasync sync_file_range mkdir mkdirat'''.split())


def whole_lines(lines):
    """The calls of a trace, a line each: strace cuts a call in two where one of another thread comes between."""
    begun = {}
    for line in lines:
        thread, _, said = line.strip().partition(' ')
        said = said.strip()
        resumed = re.match(r'<\.\.\. \w+ resumed>(.*)', said)
        if said.endswith(CUT):
            begun[thread] = said.removesuffix(CUT)
        else:
            yield begun.pop(thread) + resumed[1] if resumed else said


def calls_of(lines):
    """The calls that ended well."""
    for line in whole_lines(lines):
        found = CALL.fullmatch(line)
        if found and not found[3].startswith('-'):
            strings = [(near, ast.literal_eval(f'b"{text}"'), bool(cut)) for near, text, cut in STRING.findall(found[2])]
            yield Call(found[1], STRING.sub(lambda string: string[1] or '', found[2]), strings, int(found[3], 0))


class Descriptors:
    """The paths of what is open, relative to the folder that the program runs in."""

    def __init__(self):
        self.paths = {}

    def paths_named(self, call):
        """The paths that a call has as texts."""
        for near, text, _ in call.strings:
            below = self.paths.get(int(near), '') if near.isdigit() else ''
            yield posixpath.normpath(posixpath.join(below, text.decode()))

    def of_first(self, call):
        first = call.plain.split(',')[0].strip()
        return self.paths.get(int(first)) if first.isdigit() else None

    def steps(self, call):
        """What a call does to files."""
        if call.name in OPENS:
            return self.open(call)
        if call.name.startswith('dup') or call.name == 'fcntl' and 'F_DUPFD' in call.plain:
            self.paths[call.result] = self.of_first(call)
            return []
        if call.name.startswith('rename'):
            return self.rename(*self.paths_named(call))
        if call.name in ('write', 'writev', 'fsync', 'close'):
            return self.on_open_file(call)
        return self.other(call)

    def open(self, call):
        path, = self.paths_named(call)
        self.paths[call.result] = path
        flags = 'O_WRONLY|O_CREAT|O_TRUNC' if call.name == 'creat' else call.plain
        return [Step('open', path, flags)] if FOR_WRITING.search(flags) else []

    def rename(self, old, new):
        """A file that is open while it is renamed is written to under its new name."""
        for number, path in self.paths.items():
            if path == old:
                self.paths[number] = new
        return [Step('rename', old, new)]

    def on_open_file(self, call):
        path = self.of_first(call)
        if call.name == 'close':
            self.paths.pop(int(call.plain), None)
        if path is None:
            return []
        if call.name in ('fsync', 'close'):
            return [Step('sync' if call.name == 'fsync' else 'close', path, None)]
        if any(is_cut for _, _, is_cut in call.strings):
            raise Unreadable(f'{path}: strace did not tell all that is written')
        return [Step('write', path, b''.join(text for _, text, _ in call.strings)[:call.result])]

    def other(self, call):
        if call.name in QUIET:
            return []
        if call.name == 'mmap':
            path = self.paths.get(int(call.plain.split(', ')[4]))
            is_harmless = 'MAP_SHARED' not in call.plain or 'PROT_WRITE' not in call.plain
            return [] if is_harmless or path is None else [Step('other', path, 'mmap')]
        paths = [*self.paths_named(call), self.of_first(call)]
        return [Step('other', path, call.name) for path in paths if path is not None]


def steps_of(lines):
    """What a run does to files, step by step."""
    descriptors = Descriptors()
    return [step for call in calls_of(lines) for step in descriptors.steps(call)]


# ---- the order of the steps

class File:
    def __init__(self):
        self.data = bytearray()
        self.is_synced = self.is_in_folder = False


class Folder:
    """What was done to the files of one folder so far, and what of it was out of order."""

    def __init__(self, name):
        self.name, self.files = name, {}
        self.published = None  # the ids of the segments that the last meta names
        self.is_meta_synced = False
        self.faults = {check: [] for check in CHECKS}

    def fault(self, check, file, what):
        self.faults[check].append(f'{self.name}/{file} {what}')

    def name_of(self, path):
        """The name of a file of this folder, empty for the folder itself; nothing elsewhere."""
        if path == self.name:
            return ''
        return path.removeprefix(f'{self.name}/') if path.startswith(f'{self.name}/') else None

    def take(self, step):
        name = self.name_of(step.path)
        if step.what == 'rename':
            self.rename(name, self.name_of(step.more))
        elif step.what == 'other' and name:
            self.fault('whole', name, f'is changed by {step.more}')
        elif step.what == 'sync' and name == '':
            self.sync_folder()
        elif name and step.what != 'other':
            getattr(self, step.what)(name, step.more)

    def open(self, name, flags):
        is_exclusive = 'O_CREAT' in flags and 'O_EXCL' in flags
        is_segment = SEGMENT_FILE.fullmatch(name)
        if name == META:
            return self.fault('replaced', name, 'is opened for writing')
        if name == UNFINISHED and not is_exclusive and 'O_TRUNC' not in flags:
            self.fault('unfinished', name, 'may have bytes of an earlier run')
        if is_segment and not is_exclusive:
            self.fault('made', name, 'is opened for writing without O_CREAT and O_EXCL')
        if is_segment and is_segment[1] in (self.published or ()):
            self.fault('last', name, 'is opened for writing after the meta that names its segment')
        if name != UNFINISHED and not is_segment:
            self.fault('whole', name, 'is opened for writing, and is no file of an index')
        self.files[name] = File()

    def write(self, name, data):
        is_segment = SEGMENT_FILE.fullmatch(name)
        if name == META:
            self.fault('replaced', name, 'is written in place')
        if is_segment and is_segment[1] in (self.published or ()):
            self.fault('last', name, 'is written after the meta that names its segment')
        if name in self.files:
            file = self.files[name]
            file.data += data
            file.is_synced = file.is_in_folder = False

    def sync(self, name, _):
        if name in self.files:
            self.files[name].is_synced = True

    def close(self, name, _):
        if SEGMENT_FILE.fullmatch(name) and name in self.files and not self.files[name].is_synced:
            self.fault('synced', name, 'is closed before it is synced')

    def sync_folder(self):
        self.is_meta_synced = True
        for file in self.files.values():
            file.is_in_folder = True

    def rename(self, old, new):
        if old is None and new is None:
            return
        if (old, new) != (UNFINISHED, META) or UNFINISHED not in self.files:
            return self.fault('replaced', new or '', f'comes by a rename of {old}')
        meta = self.files[META] = self.files.pop(UNFINISHED)
        if not meta.is_synced:
            self.fault('unfinished', UNFINISHED, 'is renamed before it is synced')
        self.is_meta_synced = False
        self.publish(bytes(meta.data))

    def publish(self, meta):
        """A meta takes its name: all that it names is to be on the disk."""
        try:
            segments = json.loads(meta)['segments']
            named = [name for segment in segments for name in names_of(segment)]
        except (ValueError, KeyError, TypeError):
            return self.fault('unfinished', UNFINISHED, 'is renamed before it is a whole meta')
        self.published = {segment['segment_id'] for segment in segments}
        for name in named:
            file = self.files.get(name)
            if file is None:
                self.fault('named', name, 'is named by a meta before it is made')
            elif not file.is_synced or not file.is_in_folder:
                self.fault('named', name, 'is named by a meta before the folder is synced')

    def end(self, there):
        """The program has ended with status 0, and these files are there, or those that were made."""
        if self.published is None:
            self.fault('replaced', META, 'never came')
        elif not self.is_meta_synced:
            self.fault('end', META, 'is renamed, and the folder not synced after it')
        for name, file in self.files.items():
            is_segment = SEGMENT_FILE.fullmatch(name)
            if is_segment and not file.is_synced:
                self.fault('synced', name, 'is not synced after its last write')
            if is_segment and is_segment[1] not in (self.published or ()):
                self.fault('last', name, 'is named by no meta')
        if there is not None:
            self.compare(there)

    def compare(self, there):
        for name in sorted(there.keys() | self.files.keys()):
            written = bytes(self.files[name].data) if name in self.files else None
            if written != there.get(name):
                self.fault('whole', name, 'has other bytes than were written to it')


def names_of(segment):
    """The names of the files of a segment, as a meta lists it."""
    names = [f'{segment["segment_id"]}.{ending}' for ending in ENDINGS]
    if segment['deletes'] is not None:
        names.append(f'{segment["segment_id"]}.{segment["deletes"]["opstamp"]}.del')
    return names


def faults_of(lines, name, there=None):
    """What a run that ended with status 0 did out of order in a folder that was empty, by check; `there` are its files afterwards."""
    folder = Folder(name)
    for step in steps_of(lines):
        folder.take(step)
    folder.end(there)
    return folder.faults


def changes_of(lines, name):
    """What a run changed in a folder that it is to leave as it is."""
    folder = Folder(name)
    steps = [step for step in steps_of(lines) if step.what in ('open', 'write', 'rename', 'other')]
    return [f'{step.path}: {step.what}' for step in steps if folder.name_of(step.path) or folder.name_of(str(step.more))]
