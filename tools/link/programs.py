"""Assembly of the programs that are linked: a table with the address of each symbol, and for AMD64 code that uses each."""

REFERENCES = ".refs"
GOOD = 42


def referring(symbols, word):
    """A section that has one word for each symbol."""
    lines = [f'  {word} "{symbol}"' for symbol in symbols]
    return "\n".join([f'.section {REFERENCES},"dr"', *lines, ""])


def idle(entry, symbols, word):
    """A program that only refers to the symbols."""
    return f".text\n.globl {entry}\n{entry}:\n  ret\n" + referring(symbols, word)


def running(wanted, values):
    """A program for AMD64 that uses each symbol and exits with GOOD, or with the number of the first whose value is another
    than its entry's."""
    lines = [".text", ".globl start", "start:", "  subq $40, %rsp"]
    for number, (symbol, (entry, kind)) in enumerate(wanted.items(), 1):
        if kind == "code":
            lines.append(f'  call {"*" if is_slot(symbol) else ""}"{symbol}"{"(%rip)" if is_slot(symbol) else ""}')
        else:
            lines += [f'  movq "{symbol}"(%rip), %rax', "  movl (%rax), %eax"]
        lines += [f"  movl ${number}, %ecx", f"  cmpl ${values[entry]}, %eax", "  jne done"]
    lines += [f"  movl ${GOOD}, %ecx", "done:", "  movl %ecx, %eax", "  addq $40, %rsp", "  ret", ""]
    return "\n".join(lines) + referring(wanted, ".quad")


def is_slot(symbol):
    """Whether a symbol is the slot that a thunk would jump through."""
    return symbol.startswith("__imp_")


def library(entries, values):
    """Assembly and module definition of a DLL for AMD64 with these entries: code that returns its value, and words that
    hold it."""
    code, data, exports = [".text"], [".data"], ["EXPORTS"]
    for index, (entry, kind) in enumerate(entries.items()):
        how, what = entry.split(" ", 1)
        own = f"entry{index}"
        if kind == "code":
            code += [f".globl {own}", f"{own}:", f"  movl ${values[entry]}, %eax", "  ret"]
        else:
            data += [f".globl {own}", f"{own}:", f"  .long {values[entry]}"]
        mark = "" if kind == "code" else " DATA"
        exports.append(f"  {what}={own}{mark}" if how == "name" else f"  {own} @{what} NONAME{mark}")
    return "\n".join([*code, *data, ""]), "\n".join([*exports, ""])
