"""The worked kinds of modules that bench/showing and bench/rewriting measure: 15 functions of 4,000 lines that are straight (`line`), that join,
that loop, that call, and few with many pointers that are live across calls; and the text that LLVM's passes take of each.
"""
P, CELL = 'ptr addrspace(1)', '%N'
ROOM = 4000
POLL = 'declare void @do_poll()\ndefine void @gc.safepoint_poll() {\n  call void @do_poll()\n  ret void\n}\n'
HEAD = f'{CELL} = type {{ i64 }}\ndeclare {P} @gc_new.N(i64)\n'
COMMON = ('define void @f() gc "statepoint-example" {\n  ret void\n}\n\n'
          'define i64 @main() gc "statepoint-example" {\n  ret i64 0\n}\n\n')


def line(n):
    return [f'  %g{n} = getelementptr {CELL}, {P} %a, i64 {n}', f'  %v{n} = load i64, {P} %g{n}', f'  %w{n} = add i64 %v{n}, 1',
            f'  store i64 %w{n}, {P} %g{n}']


def joins(n):
    return [f'  %g{n} = getelementptr {CELL}, {P} %a, i64 1', f'  br i1 %q, label %l{n}, label %j{n}', f'l{n}:',
            f'  %h{n} = getelementptr {CELL}, {P} %b, i64 2', f'  br label %j{n}', f'j{n}:',
            f'  %p{n} = phi {P} [ %g{n}, %s{n} ], [ %h{n}, %l{n} ]', f'  %v{n} = load i64, {P} %p{n}', f'  br label %s{n + 1}', f's{n + 1}:']


def loops(n):
    return [f'  br label %h{n}', f'h{n}:', f'  %p{n} = phi {P} [ %a, %s{n} ], [ %g{n}, %h{n} ]', f'  %i{n} = phi i64 [ 0, %s{n} ], [ %m{n}, %h{n} ]',
            f'  store i64 %i{n}, {P} %p{n}', f'  %g{n} = getelementptr {CELL}, {P} %p{n}, i64 1', f'  %m{n} = add i64 %i{n}, 1',
            f'  %c{n} = icmp ult i64 %m{n}, %x', f'  br i1 %c{n}, label %h{n}, label %s{n + 1}', f's{n + 1}:']


def calls(n):
    return [f'  %o{n} = call {P} @gc_new.N(i64 1)', f'  %g{n} = getelementptr {CELL}, {P} %o{n}, i64 0', '  call void @f()',
            f'  store i64 %x, {P} %g{n}', f'  %v{n} = load i64, {P} %o{n}']


def live(pointers, calls):
    """So many pointers live over every call of so many."""
    lines = [f'  %o{k} = call {P} @gc_new.N(i64 1)' for k in range(pointers)] + ['  call void @f()'] * calls
    return lines + [f'  store i64 {k}, {P} %o{k}' for k in range(pointers)]


def repeated(part):
    lines, count, n = [], 4, 0
    while count + 1 <= ROOM:
        more = part(n)
        count += sum(not one.endswith(':') for one in more)
        lines += more
        n += 1
    return lines[:-len(more)]


def module(bodies):
    return COMMON + ''.join('\n'.join([f'define void @k{number}({P} %a, {P} %b, i64 %x, i1 %q) gc "statepoint-example" {{', 's0:',
                                       *body, '  ret void', '}', '', '']) for number, body in enumerate(bodies))


# What makes each module; those of many live pointers are as large as their rewritten text may be.
KINDS = {kind.__name__: lambda kind=kind: module([repeated(kind)] * 15) for kind in (line, joins, loops, calls)} | {
    'live': lambda: module([live(60, 500)] * 4),
    'live, a quarter': lambda: module([live(60, 500)]),
}


def ours(text):
    return HEAD + text


def theirs(text, is_typed):
    """The same for LLVM's passes, with a body for the poll; with typed pointers for LLVM 14, whose statepoints take no others."""
    text = (POLL + f'declare {P} @gc_new.N(i64)\n' + text).replace(CELL, 'i64')
    return text.replace(P, 'i64 addrspace(1)*') if is_typed else text
