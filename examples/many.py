"""A language host that registers a stack and COUNT components below it: `many.py COUNT`."""

import sys

from host import finish, register, register_stack

root = register_stack()
for k in range(int(sys.argv[1])):
    register(k + 2, "my:index:Page", f"page-{k}", root)
finish()
