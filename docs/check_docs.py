#!/usr/bin/env python3
"""Holds the documents against the repository: README.md and docs/*.md.

Run it at any place after `rt ci`, which leaves the proved program. It fails with a line for each
fault, where

- an example (an indented block that begins with `$ `) prints something else than it shows, but for
  CR and final empty lines;
- a name in backticks, of a crate, a file, a call, a type or a law, exists nowhere;
- a crate isn't named in README.md, or has no section in docs/map.md or docs/proved.md, a section of
  docs/proved.md lacks one of its five parts, or a source file isn't named in its crate's section
  of the map;
- a link leads nowhere, or a line of prose is longer than 100 columns.

With `--names` it runs no example, and needs no program.
"""
import os
import re
import subprocess
import sys

TOP = os.path.dirname(os.path.dirname(os.path.abspath(__file__)))
PROGRAM = os.path.join(TOP, 'crates', 'kj_serve', 'out', 'kj_serve')
PARTS = ['Proved', 'Tested', 'Not proved', 'Trusted', 'Planted']
WIDTH = 100

# Names of others, which stand in no source here: KJ's, Rust's, the kit's, the shell's and HTTP's.
OTHERS = set('''
    READY_NOW evalLater evalLast PromiseFulfillerPair newPromiseAndFulfiller ChainPromiseNode
    eagerlyEvaluate Canceler ForkHub exclusiveJoin joinPromises joinPromisesFailFast TaskSet
    addBranch onEmpty executeAsync then fulfill reject detach fork add clear cancel wrap
    Promise::then Canceler::wrap ForkedPromise ForkedPromise::addBranch Executor::executeAsync
    OVERLOADED DISCONNECTED UNIMPLEMENTED kj/async.h kj/compat/http.h kj/exception.h
    clone cat httparse std rt python3 HEAD CONNECT Expect Upgrade returns-in-Err-clause-cause
    read_whole-requires loop-record-preserved overflow_add-at
'''.split())

# The page that goes through KJ's calls and types, and those of its names that stand nowhere else.
KJ_PAGE = 'docs/FOR_KJ_USERS.md'
KJ_NAMES = set('''
    NEVER_DONE catch_ ignoreResult hasBranches attach trace poll evalNow yield retryOnDisconnect
    isWaiting rejectIfThrows newAdaptedPromise newPromiseAndCrossThreadFulfiller isEmpty
    ErrorHandler EventLoop WaitScope WaitScope::poll cancelAllDetached isRunnable EventPort
    setupAsyncIo Timer afterDelay timeoutAfter startFiber FiberPool co_await Exception::Type
    bad_alloc armBreadthFirst armDepthFirst armLast getCurrentThreadExecutor addRef executeSync
    isLive HttpServer listenHttp listenHttpCleanDrain HttpService requestBody Response::send
    sendError acceptWebSocket HttpHeaders HttpHeaderTable HttpHeaderId HttpMethod
    HttpServerErrorHandler HttpServerSettings HttpServerCallbacks HttpClient
'''.split())


def read(path):
    with open(os.path.join(TOP, path), encoding='utf-8') as f:
        return f.read()


def documents():
    docs = sorted(f for f in os.listdir(os.path.join(TOP, 'docs')) if f.endswith('.md'))
    return ['README.md'] + ['docs/' + f for f in docs]


def crates():
    """The crates of crates.txt, each with what it stands on."""
    found = {}
    for line in read('crates.txt').splitlines():
        if line.strip() and not line.startswith('#'):
            head, _, deps = line.partition(':')
            found[head.split()[0]] = deps.split()
    return found


def files_below(crate, folder):
    top = os.path.join(TOP, 'crates', crate, folder)
    for here, _, names in os.walk(top):
        for name in sorted(names):
            yield os.path.relpath(os.path.join(here, name), TOP)


class Sources:
    """What the sources name: words, calls of types, files."""

    def __init__(self):
        self.words, self.calls, self.files = set(), set(), set()
        for crate, deps in crates().items():
            self.words.update([crate] + deps)
            for folder in ('src', 'specs', 'proofs', 'must-fail'):
                for path in files_below(crate, folder):
                    self.add_file(path)
                    if path.endswith(('.rt', '.antt')):
                        self.add_text(read(path), path)

    def add_file(self, path):
        parts = path.split('/')
        stem = os.path.splitext(path)[0].split('/')
        for k in range(len(parts)):
            self.files.add('/'.join(parts[k:]))
            self.files.add('/'.join(stem[k:]))
            self.files.add('/'.join(parts[:k + 1]))
            self.files.add('/'.join(parts[k:-1]) or parts[0])
        if len(parts) > 3:                       # kj_base/limits.rt, kj_base/Commands
            self.files.add('/'.join([parts[1]] + parts[3:]))
            self.files.add('/'.join([parts[1]] + stem[3:]))

    def add_text(self, text, path):
        text = re.sub(r'//[^\n]*' if path.endswith('.rt') else r'--[^\n]*', '', text)
        self.words.update(re.findall(r"[A-Za-z_][A-Za-z0-9_]*", text))
        if path.endswith('.rt'):
            self.add_calls(text)

    def add_calls(self, text):
        """`Type::call` and `Type::Variant`, by the braces of `impl`, `trait` and `enum`."""
        text = re.sub(r'b?"(?:[^"\\]|\\.)*"', '""', text)
        text = re.sub(r"b?'(?:[^'\\]|\\.)'", "''", text)
        head = re.compile(r'\b(impl|trait|enum|struct)\b([^{};]*)\{')
        for m in head.finditer(text):
            names = self.heads(m.group(1), m.group(2))
            body = self.braced(text, m.end())
            inner = re.findall(r'\bfn\s+(\w+)', body) if m.group(1) != 'enum' else \
                re.findall(r'(?:^|[,{]|\])\s*(\w+)\s*(?=[,({]|$)', body.strip() + ',')
            if m.group(1) == 'struct':
                inner = re.findall(r'(\w+)\s*:', body)
            self.calls.update('%s::%s' % (name, call) for name in names for call in inner)

    @staticmethod
    def heads(kind, text):
        text = re.sub(r'^\s*<[^>]*>', '', text)
        names = [part.strip().split('<')[0].split(':')[0].split('::')[-1].strip()
                 for part in (text.split(' for ') if kind == 'impl' else [text])]
        return [re.split(r'\s', name)[0] for name in names if name]

    @staticmethod
    def braced(text, start):
        depth, k = 1, start
        while k < len(text) and depth:
            depth += {'{': 1, '}': -1}.get(text[k], 0)
            k += 1
        return text[start:k - 1]

    def has(self, name):
        """Whether a name exists; None where it is no name but a text."""
        if name in OTHERS:
            return True
        if re.search(r'(^|/)[A-Z][A-Z_]+[./]', name):    # crates/NAME/src: a form of names
            return None
        name = name[2:] if name.startswith('./') else name
        call = re.fullmatch(r'((?:\w+::)*)(\w+)(?:\(.*\))?', name)
        if re.fullmatch(r'[\w.*/-]+\.(rt|antt|md|sh|py|edit|txt|kjs|kjrec)', name) or '/' in name and \
                re.fullmatch(r'[\w.-]+(/[\w.-]*)+', name):
            return self.has_file(name)
        if self.has_file(name):
            return True
        if not call or not re.match(r'[A-Za-z_]', name) or len(name) < 2:
            return None
        if call.group(1):
            owner = call.group(1)[:-2].split('::')[-1]
            return '%s::%s' % (owner, call.group(2)) in self.calls or \
                owner in crates() and call.group(2) in self.words
        return call.group(2) in self.words

    def has_file(self, name):
        name = name.rstrip('/')
        at = [name, 'docs/' + name]
        return name in self.files or any(os.path.exists(os.path.join(TOP, p)) for p in at)


def prose(text):
    """The lines of a document with their numbers, and whether each is of an indented block."""
    in_block, before = False, ''
    for number, line in enumerate(text.splitlines(), 1):
        if line.strip():
            in_block = line.startswith('    ') and (in_block or not before.strip())
        yield number, line, in_block
        before = line


def examples(text):
    """Each command that a document shows: its line, the command, what it prints."""
    found, current = [], None
    for number, line, in_block in prose(text):
        if in_block and line.startswith('    $ '):
            current = (number, line[6:], [])
            found.append(current)
        elif in_block and current is not None:
            current[2].append(line[4:])
        elif not in_block:
            current = None
    return found


def without_end(text):
    lines = text.replace('\r', '').split('\n')
    while lines and not lines[-1].strip():
        lines.pop()
    return lines


def check_examples(doc, text):
    for number, command, shown in examples(text):
        run = subprocess.run(['bash', '-c', command], cwd=TOP, stdin=subprocess.DEVNULL,
                             stdout=subprocess.PIPE, stderr=subprocess.STDOUT, timeout=120)
        printed = without_end(run.stdout.decode('utf-8', 'replace'))
        if printed != without_end('\n'.join(shown)):
            yield '%s:%d: `%s` prints something else:' % (doc, number, command)
            for line in printed[:30]:
                yield '        ' + line


def check_names(doc, text, sources):
    for number, line, in_block in prose(text):
        if in_block:
            continue
        for name in re.findall(r'`([^`]+)`', line):
            if sources.has(name) is False and not (doc == KJ_PAGE and name in KJ_NAMES):
                yield '%s:%d: `%s` exists nowhere' % (doc, number, name)


def check_lines(doc, text):
    for number, line, in_block in prose(text):
        if len(line) > WIDTH and not in_block and not line.startswith('|') and ' ' in line.strip():
            yield '%s:%d: a line of %d columns' % (doc, number, len(line))
        for link in [] if in_block else re.findall(r'\]\(([^)#:]+)\)', line):
            if not os.path.exists(os.path.join(TOP, os.path.dirname(doc), link)):
                yield '%s:%d: the link %s leads nowhere' % (doc, number, link)


def sections(doc):
    """The sections of a document by the first word of their head."""
    found = {}
    for part in re.split(r'(?m)^##? ', read(doc))[1:]:
        head, _, body = part.partition('\n')
        found[re.split(r'[\s:,]', head)[0]] = body
    return found


def check_sections():
    mapped, proved = sections('docs/map.md'), sections('docs/proved.md')
    readme = read('README.md')
    for crate in crates():
        if '`%s`' % crate not in readme:
            yield 'README.md: %s isn\'t named' % crate
        if crate not in mapped:
            yield 'docs/map.md: no section on %s' % crate
        if crate not in proved:
            yield 'docs/proved.md: no section on %s' % crate
        parts = re.split(r'(?m)^### ', proved.get(crate, ''))[1:]
        heads = [part.partition('\n')[0].strip() for part in parts]
        if crate in proved and heads != PARTS:
            yield 'docs/proved.md: the parts of %s are %s' % (crate, ', '.join(heads))
        for part in parts:
            if not part.partition('\n')[2].strip():
                yield 'docs/proved.md: nothing stands under a part of %s' % crate
        for path in files_below(crate, 'src'):
            name = os.path.basename(path)
            if name not in ('lib.rt', 'tests.rt') and '/tests/' not in path \
                    and '`%s`' % name not in mapped.get(crate, ''):
                yield 'docs/map.md: %s of %s isn\'t named' % (name, crate)


def main():
    with_examples = sys.argv[1:] != ['--names']
    if with_examples and not os.path.exists(PROGRAM):
        print('check_docs: there is no proved program: run rt ci first')
        return 1
    sources = Sources()
    faults = list(check_sections())
    ran = 0
    for doc in documents():
        text = read(doc)
        faults += check_lines(doc, text)
        faults += check_names(doc, text, sources)
        if with_examples:
            faults += check_examples(doc, text)
            ran += len(examples(text))
    for fault in faults:
        print(fault)
    print('check_docs: %d examples run, %s' % (ran, 'no fault' if not faults else 'FAILED'))
    return 1 if faults else 0


if __name__ == '__main__':
    sys.exit(main())
