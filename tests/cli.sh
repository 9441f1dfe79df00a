#!/usr/bin/env bash
# What the program answers to bad input: the words, the status, and that it goes on. usage: cli.sh KILN
set -u
kiln=$1
case $kiln in /*) ;; *) kiln=$PWD/$kiln ;; esac
folder=$(mktemp -d)
trap 'rm -rf "$folder"' EXIT
cd "$folder" || exit 1
tried=0
failed=0

# expect STATUS TEXT WORDS..: the status, and a text that standard output and error together hold
expect() {
  local status=$1 text=$2 got out
  shift 2
  out=$("$kiln" "$@" 2>&1 </dev/null)
  got=$?
  tried=$((tried + 1))
  if [ "$got" != "$status" ] || ! grep -qF -- "$text" <<<"$out"; then
    failed=$((failed + 1))
    printf 'cli.sh: kiln %s: status %s, wanted %s with: %s\n%s\n' "$*" "$got" "$status" "$text" "$out"
  fi
}

printf 'hold 15\n' >good.txt
: >empty.txt
mkdir folder
head -c 65536 /dev/zero >longest.bin
head -c 65537 /dev/zero >longer.bin

expect 0 'usage:' help
expect 0 'usage:' --help
expect 1 'usage:'
expect 1 'no command'
expect 1 "there is no command 'bake'" bake
expect 1 'no file is named' key
expect 1 '--digest wants a name' key --digest
expect 1 "there is no digest 'md5'" key --digest md5 good.txt
expect 1 'no file is named' key --digest tally
expect 1 "'--digest' is no option here" key good.txt --digest tally
expect 1 "'--sum' is no option here" key --sum good.txt
expect 0 '  8  good.txt' key good.txt
expect 0 '  0  empty.txt' key empty.txt
expect 0 '  65536  longest.bin' key longest.bin
expect 1 'longer.bin: too long for this digest, which takes up to 65536 bytes' key longer.bin good.txt
expect 1 '  8  good.txt' key longer.bin good.txt
expect 1 'no key for 1 of 2 files' key longer.bin good.txt
expect 1 'missing.txt: ' key missing.txt
expect 1 'folder: ' key folder
expect 1 '  8  good.txt' key folder missing.txt good.txt
expect 1 'longer.bin: too long' key --digest tally longer.bin
expect 1 '/dev/zero: too long' key /dev/zero
key=af63dc4c8601ec8c00000000000000000000000000000000000000000000000000000001
expect 0 'text 015503af63dc4c8601ec8c' action U from $key
expect 0 'key 690ff57c130fa9ec' action U from $key
expect 0 'text 014b02046761696e' action K gain from $key $key
expect 0 'text 014b020566726f6d30' action K from0 from $key
expect 1 'wants a letter' action
expect 1 "wants 'from'" action U $key
expect 1 '1 to 4 keys' action U from
expect 1 '1 to 4 keys' action U from $key $key $key $key $key
expect 1 'A to Z' action u from $key
expect 1 'A to Z' action UU from $key
expect 1 'up to 2 arguments' action K a b c from $key
expect 1 "'seventeen_bytes_n' is no argument" action K seventeen_bytes_n from $key
expect 1 'is no argument' action K 'a b' from $key
expect 1 'is no key' action U from ${key}0
expect 1 'is no key' action U from ${key^^}
expect 1 'is no key' action U from ''
head -c 2088 /dev/zero >short.slots
head -c 2089 /dev/zero >one.slots
head -c 65536 /dev/zero >clear.log
printf '\005' | cat - longest.bin >longer.log
printf '\005\001\002' >cut.log
expect 0 'one.slots: 1 slots' cache list one.slots
expect 0 'longer.bin: 30 slots' cache list longer.bin
expect 1 '2088 bytes are too few for a cache of slots, which has 2089 or more' cache list short.slots
expect 1 'empty.txt: 0 bytes are too few' cache list empty.txt
expect 0 'the entries end at byte 0' cache list --as log empty.txt
expect 0 'the entries end at byte 0' cache list --as log clear.log
expect 1 'longer.log: too long for a log, which has up to 65536 bytes' cache list longer.log
expect 0 'damaged at byte 0: no whole entry begins there' cache list cut.log
expect 1 'missing.txt: ' cache list missing.txt
expect 1 'folder: ' cache list folder
expect 1 "'cache' wants another word" cache
expect 1 "there is no command 'drop'" cache drop
expect 1 'no file is named' cache list
expect 1 '--as wants a layout' cache list --as
expect 1 "there is no layout 'tree'" cache list --as tree one.slots
expect 1 'no file is named' cache list --as log
expect 1 "'--as' is no option here" cache list one.slots --as log
expect 1 "'clear.log' is one too many" cache list one.slots clear.log
if [ "$(id -u)" != 0 ]; then
  chmod 000 empty.txt
  expect 1 'empty.txt: ' key empty.txt
fi

printf 'cli.sh: %d tried, %d failed\n' "$tried" "$failed"
[ "$failed" = 0 ]
