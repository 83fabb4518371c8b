# A host that registers a stack and a component below it. It says that it is done only where both answers and
# the checkpoint's file have just the bytes of the files beside it.
cat registrations.frames
dd bs=1 count=166 2>/dev/null | cmp -s - answers.frames || exit
cmp -s web.json wanted.json || exit
printf '\000\000\000\017{"call":"done"}'
cat >/dev/null
