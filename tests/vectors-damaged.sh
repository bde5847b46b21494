#!/bin/bash
# Runs the program `vectors` on damaged copies of its files, and holds what it writes to what it must say of each.
# To be run once `rt ci`, or `rt run` in crates/vectors, has built it. One line a case; the status is 0 only where every case passed.
set -u

root=$(cd "$(dirname "$0")/.." && pwd)
program=$root/crates/vectors/out/vectors
data=$root/crates/vectors/data
short=SHA256ShortMsg.rsp
long=SHA256LongMsg.rsp
monte=SHA256Monte.rsp

[ -x "$program" ] || { echo "crates/vectors/out/vectors is not built: run rt ci first"; exit 2; }
work=$(mktemp -d)
trap 'rm -rf "$work"' EXIT
cd "$work" || exit 2

passed=0
failed=0

report() { # CASE STATUS
  if [ "$2" = 0 ]; then
    passed=$((passed + 1))
    echo "ok      $1"
  else
    failed=$((failed + 1))
    echo "FAILED  $1"
  fi
}

fresh() { # FILE..: as they are published, and no other
  rm -rf "$short" "$long" "$monte"
  local f
  for f in "$@"; do cp "$data/$f" . && chmod u+w "$f"; done
}

vectors_of() { # FILE
  case $1 in
    "$short") echo 65 ;;
    "$long") echo 64 ;;
    "$monte") echo 100 ;;
  esac
}

# The program says SAYS of FILE, that the other two pass, and CLOSING. Then the files are made anew.
hold() { # CASE FILE SAYS CLOSING
  local want="" got f
  for f in "$short" "$long" "$monte"; do
    if [ "$f" = "$2" ]; then want+="$f: $3"; else want+="$f: $(vectors_of "$f") run, 0 differ"; fi
    want+=$'\n'
  done
  want+=$4
  got=$("$program")
  [ "$got" = "$want" ]
  report "$1" $?
  [ "$got" = "$want" ] || diff <(echo "$want") <(echo "$got") | sed 's/^/        /'
  fresh "$short" "$long" "$monte"
}

damaged() { # CASE FILE LINE
  hold "$2: $1" "$2" "damaged at line $3" "$((229 - $(vectors_of "$2"))) vectors run, 0 differ, 1 files damaged"
}

missing() { # CASE FILE
  hold "$2: $1" "$2" "missing" "$((229 - $(vectors_of "$2"))) vectors run, 0 differ, 1 files damaged"
}

differ() { # CASE FILE HOW-MANY
  hold "$2: $1" "$2" "$(vectors_of "$2") run, $3 differ" "229 vectors run, $3 differ, 0 files damaged"
}

closing() { # CASE CLOSING
  [ "$("$program" | tail -n 1)" = "$2" ]
  report "$1" $?
  fresh "$short" "$long" "$monte"
}

# A group of messages is Len, Msg, MD and a blank line, the first at line 8. A count is COUNT, MD and a blank line, the first
# at line 10, after Seed at line 8.
len_line() { echo $((8 + 4 * $1)); }
msg_line() { echo $((9 + 4 * $1)); }
md_line() { echo $((10 + 4 * $1)); }
count_line() { echo $((10 + 3 * $1)); }
count_md_line() { echo $((11 + 3 * $1)); }

# Changes the character after the first COLUMN of a line: 0 becomes 1, and any other becomes 0.
flip() { # FILE LINE COLUMN
  sed -i -E "$2s/^(.{$3})0/\1@/; $2s/^(.{$3})[^@]/\10/; $2s/@/1/" "$1"
}

cut_in() { # FILE LINE BYTES: leaves so many bytes of the line, and nothing after them
  head -c $(($(head -n $(($2 - 1)) "$1" | wc -c) + $3)) "$1" > part && mv part "$1"
}

cut_off() { # FILE BYTES
  head -c "-$2" "$1" > part && mv part "$1"
}

repeat() { # FILE FROM TO: puts these lines in twice
  { head -n "$3" "$1"; sed -n "$2,$3p" "$1"; tail -n "+$(($3 + 1))" "$1"; } > part && mv part "$1"
}

fresh "$short" "$long" "$monte"
hold "the files as they are published" "" "" "229 vectors run, 0 differ, 0 files damaged"

for f in "$short" "$long"; do
  last=$(($(vectors_of "$f") - 1))
  cut_in "$f" "$(md_line 20)" 30; damaged "cut in the middle of a digest" "$f" "$(md_line 20)"
  cut_in "$f" "$(msg_line 30)" 21; damaged "cut in the middle of a message" "$f" "$(msg_line 30)"
  cut_in "$f" "$(len_line 30)" 0; damaged "cut after a whole group" "$f" "$(len_line 30)"
  cut_in "$f" "$(len_line $last)" 0; damaged "without its last group" "$f" "$(len_line $last)"
  cut_in "$f" 8 0; damaged "with its header alone" "$f" 8

  flip "$f" "$(md_line 0)" 5; differ "a flipped digit in the first digest" "$f" 1
  flip "$f" "$(md_line $last)" 68; differ "a flipped digit at the end of the last digest" "$f" 1
  flip "$f" "$(md_line 5)" 20; flip "$f" "$(md_line 6)" 20; differ "a flipped digit in two digests" "$f" 2
  flip "$f" "$(msg_line 40)" 6; differ "a flipped digit in a message" "$f" 1

  sed -i "$(len_line 7)d" "$f"; damaged "a removed Len line" "$f" "$(len_line 7)"
  sed -i "$(msg_line 7)d" "$f"; damaged "a removed Msg line" "$f" "$(msg_line 7)"
  sed -i "$(md_line 7)d" "$f"; damaged "a removed MD line" "$f" "$(md_line 7)"
  sed -i "$(len_line 9),$(($(len_line 10) - 1))d" "$f"; damaged "a removed group" "$f" "$(len_line 9)"
  repeat "$f" "$(len_line 9)" "$(($(len_line 10) - 1))"; damaged "a duplicated group" "$f" "$(len_line 10)"
  repeat "$f" "$(len_line $last)" "$(($(len_line $last) + 3))"; damaged "the last group twice" "$f" "$(len_line $((last + 1)))"

  sed -i "$(len_line 12)s/= .*\r/= 8\r/" "$f"; damaged "a wrong Len" "$f" "$(len_line 12)"
  sed -i "$(len_line 12)s/= /= 0/" "$f"; damaged "a Len with a zero in front" "$f" "$(len_line 12)"
  sed -i "$(msg_line 12)s/\r/ab\r/" "$f"; damaged "a message that is a byte too long" "$f" "$(msg_line 12)"
  sed -i "$(msg_line 12)s/..\r/\r/" "$f"; damaged "a message that is a byte too short" "$f" "$(msg_line 12)"
  sed -i "$(msg_line 12)s/.\r/\r/" "$f"; damaged "a message with an odd number of digits" "$f" "$(msg_line 12)"
  sed -i "$(msg_line 12)s/.\r/g\r/" "$f"; damaged "a foreign character in a message" "$f" "$(msg_line 12)"
  sed -i "$(md_line 12)s/= ./= A/" "$f"; damaged "a digit in upper case in a digest" "$f" "$(md_line 12)"
  sed -i "$(md_line 12)s/= ./= /" "$f"; damaged "a digest that is a digit too short" "$f" "$(md_line 12)"
done
sed -i "9s/00/01/" "$short"; damaged "another message of no bytes" "$short" 9

cut_in "$monte" "$(count_md_line 50)" 40; damaged "cut in the middle of a digest" "$monte" "$(count_md_line 50)"
cut_in "$monte" "$(count_line 50)" 0; damaged "cut after a whole count" "$monte" "$(count_line 50)"
cut_in "$monte" "$(count_line 99)" 0; damaged "without its last count" "$monte" "$(count_line 99)"
flip "$monte" "$(count_md_line 50)" 5; differ "a flipped digit in a digest" "$monte" 1
flip "$monte" 8 10; differ "a flipped digit in the seed" "$monte" 100
sed -i "8s/= ./= x/" "$monte"; damaged "a foreign character in the seed" "$monte" 8
sed -i "$(count_md_line 12)s/= ./= G/" "$monte"; damaged "a foreign character in a digest" "$monte" "$(count_md_line 12)"
sed -i "8d" "$monte"; damaged "a removed Seed line" "$monte" 8
sed -i "$(count_line 9)d" "$monte"; damaged "a removed COUNT line" "$monte" "$(count_line 9)"
sed -i "$(count_md_line 9)d" "$monte"; damaged "a removed MD line" "$monte" "$(count_md_line 9)"
sed -i "$(count_line 9)s/9/10/" "$monte"; damaged "a COUNT out of order" "$monte" "$(count_line 9)"
sed -i "$(count_line 1)s/1/01/" "$monte"; damaged "a COUNT with a zero in front" "$monte" "$(count_line 1)"
repeat "$monte" "$(count_line 9)" "$(($(count_line 10) - 1))"; damaged "a duplicated count" "$monte" "$(count_line 10)"
repeat "$monte" "$(count_line 99)" "$(($(count_line 100) - 1))"; damaged "the last count twice" "$monte" "$(count_line 100)"

for f in "$short" "$long" "$monte"; do
  end=$(($(wc -l < "$data/$f") + 1))
  rm "$f"; missing "missing" "$f"
  : > "$f"; damaged "empty" "$f" 1
  rm "$f"; mkdir "$f"; damaged "a directory" "$f" 1
  printf 'x' >> "$f"; damaged "an appended byte" "$f" "$end"
  printf '\r\n' >> "$f"; damaged "an appended line end" "$f" "$end"
  cut_off "$f" 1; damaged "without its last byte" "$f" $((end - 1))
  cut_off "$f" 2; damaged "without its last line end" "$f" $((end - 1))
  sed -i 's/\r$//' "$f"; damaged "with other line ends" "$f" 1
  sed -i '2d' "$f"; damaged "a removed comment" "$f" 4
  sed -i '3s/^#/ /' "$f"; damaged "a line of an unknown form" "$f" 3
  sed -i '6s/32/28/' "$f"; damaged "another length of the digests" "$f" 6
  head -c 600000 /dev/zero >> "$f"; damaged "too long to be read whole" "$f" "$end"
done

mv "$short" part; mv "$long" "$short"; mv part "$long"
closing "two files by each other's names" "100 vectors run, 0 differ, 2 files damaged"
fresh
closing "no file at all" "0 vectors run, 0 differ, 3 files damaged"

# With the other files missing the program is quick enough for many runs, none of which may count the file as passed.
passes() { # FILE
  "$program" | grep -q "^$1: $(vectors_of "$1") run, 0 differ\$"
}

for f in "$short" "$long"; do
  fresh "$f"
  lines=$(wc -l < "$f")
  size=$(wc -c < "$f")
  bad=""
  for ((i = 1; i <= lines; i++)); do
    sed "${i}d" "$data/$f" > "$f"
    passes "$f" && bad+=" $i"
  done
  [ -z "$bad" ]
  report "$f: each of its $lines lines removed in turn${bad:+; passed without line$bad}" $?
  bad=""
  for ((i = size - 1; i >= 0; i -= size / 200)); do
    head -c "$i" "$data/$f" > "$f"
    passes "$f" && bad+=" $i"
  done
  [ -z "$bad" ]
  report "$f: cut at 200 places${bad:+; passed with so many bytes:$bad}" $?
  bad=""
  for ((i = 8; i <= lines; i++)); do
    fresh "$f"
    flip "$f" "$i" 5
    cmp -s "$f" "$data/$f" && continue
    passes "$f" && bad+=" $i"
  done
  [ -z "$bad" ]
  report "$f: a character changed in each line in turn${bad:+; passed with line$bad}" $?
done

echo "$passed passed, $failed failed"
[ "$failed" = 0 ]
