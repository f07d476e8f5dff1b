"""Which function calls which, read from the code that Rattle's own compiler makes, with nothing inlined, of the
program yard and of the library host: none may call itself. The compiler says so too, by the stack that the calls take
at most."""
import graphlib
import json
import os
import re
import subprocess
import sys
import tempfile

sys.dont_write_bytecode = True
sys.path.insert(0, os.path.join(os.getcwd(), 'tools'))
import kit  # noqa: E402

FUNCTION = re.compile(r'^[0-9a-f]+ <(.+)>:$')
# a call, or a jump to another function in the place of a last call; a place within a function stands as <name+0x..>
CALL = re.compile(r'\t(call|jmp)q?\s+0x[0-9a-f]+ <(.+)>$')
UNNAMED = re.compile(r'\tcallq?\s+\*')
# a call of a function of C is a place that the linker fills
FOREIGN = re.compile(r'\sR_X86_64_PLT32\s+(\w+)')
# the table of a match's jumps, past the function's code, and the place of an instruction
TABLE = re.compile(r'\tlea[ql]?\s.*\(%rip\).*# 0x([0-9a-f]+) <(.+)\+0x[0-9a-f]+>$')
PLACE = re.compile(r'^\s*([0-9a-f]+):')
STACK = re.compile(r'^built: backend=rattle .* stack-bytes=(\d+)(\+?) ', re.M)


def calls(code):
    """The functions that each function calls, call by call, and how many of its calls are of a function without a name."""
    graph, unnamed, name, table = {}, {}, None, None
    for line in code.splitlines():
        if start := FUNCTION.match(line):
            name, table = start.group(1), None
            graph[name], unnamed[name] = [], 0
        elif table is not None and (at := PLACE.match(line)) and int(at.group(1), 16) >= table:
            continue
        elif (found := TABLE.search(line)) and found.group(2) == name:
            at = int(found.group(1), 16)
            table = at if table is None else min(at, table)
        elif call := CALL.search(line):
            # (a jump to the function's own start is a loop)
            if '+0x' not in call.group(2) and call.groups() != ('jmp', name):
                graph[name].append(call.group(2))
        elif UNNAMED.search(line):
            unnamed[name] += 1
        elif foreign := FOREIGN.search(line):
            graph[name].append('C: ' + foreign.group(1))
    return graph, unnamed


def bare(name):
    """The function's name without the types that it was made for."""
    return re.sub(r'::<.*>$', '', name)


def in_mir(crates):
    """The functions that each function of these libraries calls, by the MIR that their rlibs have; a closure that a
    generic function is given has no name there."""
    graph = {}

    def named(body, found):
        if isinstance(body, dict):
            if 'Fn' in body.get('Call', [{}])[0]:
                found.add(body['Call'][0]['Fn'][0])
            for part in body.values():
                named(part, found)
        elif isinstance(body, list):
            for part in body:
                named(part, found)
        return found
    for crate in crates:
        with open(f'crates/{crate}/out/rlib/{crate}.rlib/toolchain/mir.json', encoding='utf-8') as mir:
            graph.update({name: named(function['body'], set()) for name, function in json.load(mir)})
    return graph


def circle(graph):
    """The functions that call each other around, or None."""
    try:
        graphlib.TopologicalSorter(graph).prepare()
    except graphlib.CycleError as error:
        return error.args[1][::-1]
    return None


def chains(graph):
    """The longest chain of calls below each function, itself first."""
    longest = {}
    for name in graphlib.TopologicalSorter(graph).static_order():
        longest[name] = [name] + max((longest[called] for called in graph.get(name, [])), key=len, default=[])
    return longest


def below(graph, name):
    """All functions that a function calls, be it through others."""
    found, left = set(), [name]
    while left:
        called = set(graph.get(left.pop(), [])) - found
        found |= called
        left += called
    return found


def code(bodies):
    """The listing, but for all that is no call, of these functions, each with those that it calls."""
    return ''.join(f'0 <{name}>:\n' + ''.join(f'  0:\tcallq\t0x0 <{c}>\n' for c in called)
                   for name, called in bodies.items())


def built(crate, room):
    """The listing of the crate's code, and what the compiler says of the stack: its bytes, and + where a function may
    call itself."""
    made = os.path.join(room, crate)
    kept = ['--incremental', 'out/incremental', '--toolchain', f'{kit.KIT}/toolchain']
    words = ['build', *kit.words(crate), *kept, '--backend', 'rattle', '--opt-level', '0', '-o', made]
    ran = subprocess.run([kit.RATTLE, *words], cwd=f'crates/{crate}', text=True, stdout=subprocess.PIPE,
                         stderr=subprocess.STDOUT)
    said = STACK.search(ran.stdout)
    if ran.returncode or not said:
        print('\n'.join(ran.stdout.splitlines()[-20:]))
        return None, None
    listed = subprocess.run(['llvm-objdump', '-dr', '--no-show-raw-insn', made], text=True, check=True,
                            executable=f'{kit.KIT}/toolchain/bin/clang', stdout=subprocess.PIPE)
    return listed.stdout, said.groups()


passed, failed = 0, 0


def check(what, holds):
    global passed, failed
    passed += bool(holds)
    failed += not holds
    if not holds:
        print('FAILED:', what)


# what is to be found is found
check('a function that calls itself', circle(calls(code({'main': ['f'], 'f': ['f']}))[0]))
check('three around', circle(calls(code({'main': ['f'], 'f': ['g'], 'g': ['h'], 'h': ['g', 'f']}))[0]))
tree, none = calls(code({'main': ['f', 'g', 'f'], 'f': ['h'], 'g': ['f', 'h'], 'h': []}))
check('none around, the longest chain', not circle(tree) and chains(tree)['main'] == ['main', 'g', 'f', 'h'])
check('no call of a function that has no name there', not any(none.values()))
check('a call of a function that has no name there', calls('0 <f>:\n  0:\tcallq\t*%rax\n')[1] == {'f': 1})
last = '0 <f>:\n 0:\tjmp\t0x9 <g>\n 2:\tjmp\t0x1 <f+0x1>\n 4:\tjmp\t0x0 <f>\n'
check('a last call, and loops', calls(last)[0] == {'f': ['g']})
jumps = ('0 <f>:\n 0:\tleaq\t0x8(%rip), %rsi  # 0x9 <f+0x9>\n 8:\tjmpq\t*%rsi\n 9:\tcallq\t*(%rdi)\n'
         ' a:\tcallq\t0x0 <f>\n10 <g>:\n 10:\tcallq\t0x0 <f>\n')
check('no call in a table of jumps', calls(jumps) == ({'f': [], 'g': ['f']}, {'f': 0, 'g': 0}))
check('a function that was made for some types', bare("f::g+T::h::<i64,27'f::none::<i64>{}>") == 'f::g+T::h')
foreign = '0 <f>:\n 0:\tcallq\t0x5 <f+0x5>\n\t\t1:  R_X86_64_PLT32\tread-0x4\n'
check('a call of a function of C', calls(foreign)[0] == {'f': ['C: read']})

for crate, printer in (('yard', 'text_writer::write_answer'), ('host', 'pages::print_page')):
    with tempfile.TemporaryDirectory() as room:
        listing, stack = built(crate, room)
    check(f'{crate}: built by the compiler that lists calls', listing)
    if not listing:
        continue
    graph, unnamed = calls(listing)
    check(f'{crate}: digits are written below {printer}', 'text_writer::write_digits' in below(graph, printer))
    around = circle(graph)
    check(f'{crate}: these call each other around: ' + ' > '.join(around or []), not around)
    check(f'{crate}: a function may call itself, by what the compiler says of the stack', not stack[1])
    # what a library of the kit calls without a name, the compiler follows
    named = [name for name, count in unnamed.items() if count and name.split('::')[0].strip('<') in kit.CRATES]
    check(f'{crate}: these call a function that has no name there: ' + ' '.join(named), not named)
    # in a library's code nothing was read past, and nothing is made up (a generic function's own code is not compared)
    other = [name for name, called in in_mir(kit.below(crate)).items()
             if name in graph and {bare(c) for c in graph[name] if not c.startswith('C: ')} != called]
    check(f'{crate}: these call others than in their MIR: ' + ' '.join(other), not other)
    if not around:
        longest = chains(graph)
        made = sum(map(len, graph.values()))
        print(f'{crate}: {len(graph)} functions with {made} calls, and none calls itself; the calls take {stack[0]} bytes'
              ' of stack at most, C left out; the longest chains of calls,')
        for what, chain in (('of all', max(longest.values(), key=len)), ('that prints', longest.get(printer, []))):
            print(f'  {what}, {len(chain)} functions:', ' > '.join(chain))
print(f'{passed} passed, {failed} failed')
sys.exit(1 if failed else 0)
