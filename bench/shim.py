"""shim.py MODULE.ll timed.h NATIVE.ll SHIM.c: the kit's module for x86-64 made ready for another host.

An export that gives a struct is `ptr @name(ptr result, ..)` in the module, and one that takes a large struct takes it `byval`: both are how C passes them on
x86-64. Here such an export becomes raw_name with plain pointers, and SHIM.c has name, as timed.h declares it, over raw_name.
"""
import re
import sys


def without_platform(module):
    """The module with nothing that only x86-64 has: its name, its data layout, its processors."""
    module = re.sub(r"^target (triple|datalayout) = .*\n", "", module, flags=re.M)
    module = re.sub(r'"(target-cpu|target-features|tune-cpu)"="[^"]*"', "", module)
    return re.sub(r"byval\(\[\d+ x i8\]\) ", "", module)


def shim(header, name):
    """The C text of one export over its raw form."""
    result, parameters = re.search(r"^(struct \w+) %s\((.*)\);" % name, header, re.M).groups()
    taken, given = [], []
    for parameter in parameters.split(", "):
        variable = re.search(r"\w+$", parameter).group()
        by_value = parameter.startswith("struct")
        taken.append(re.sub(r"\w+$", "*" + variable, parameter) if by_value else parameter)
        given.append("&" + variable if by_value else variable)
    return (
        f"void *raw_{name}({result} *told, {', '.join(taken)});\n"
        f"{result} {name}({parameters}) {{ {result} told; raw_{name}(&told, {', '.join(given)}); return told; }}\n"
    )


def main():
    module, header = (open(path).read() for path in sys.argv[1:3])
    names = re.findall(r"^define noundef ptr @(timed_\w+)\(", module, re.M)
    for name in names:
        module = re.sub(r"@%s\b" % name, "@raw_" + name, module)
    with open(sys.argv[3], "w") as native:
        native.write(without_platform(module))
    with open(sys.argv[4], "w") as text:
        text.write('#include "timed.h"\n' + "".join(shim(header, name) for name in names))


main()
