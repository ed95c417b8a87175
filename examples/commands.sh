# Runs the commands and the nodes of examples and cases, and compares what they print and how they end with what the files
# there say. `program`, `node`, `tokens`, `picture`, `runner`, `merged`, `fields` and `explained` are the programs,
# `scratch` is a folder to work in, and `passed` and `failed` count.

# compares one command of an example: its folder, its words, of which `SCRATCH/NAME` is a file of the scratch folder, and
# in the scratch folder what is wanted; where the first word is another program, that is run
compare() {
  local folder=$1 words ran=$program
  read -r -a words <<<"$2"
  words=("${words[@]/#SCRATCH\//$scratch/}")
  case ${words[0]-} in
    jiftokens) ran=$tokens words=("${words[@]:1}") ;;
    jifpicture) ran=$picture words=("${words[@]:1}") ;;
    jifrun) ran=$runner words=("${words[@]:1}") ;;
    jifmerge) ran=$merged words=("${words[@]:1}") ;;
    jiffields) ran=$fields words=("${words[@]:1}") ;;
    jifexplain) ran=$explained words=("${words[@]:1}") ;;
    jifhost) ran=$node words=("${words[@]:1}") ;;
  esac
  (cd "$folder" && "$ran" "${words[@]}" >"$scratch/out" 2>"$scratch/err" </dev/null)
  echo "$?" >"$scratch/status"
  if cmp -s "$scratch/out" "$scratch/want_out" && cmp -s "$scratch/err" "$scratch/want_err" && cmp -s "$scratch/status" "$scratch/want_status"; then
    passed=$((passed + 1))
    return
  fi
  failed=$((failed + 1))
  echo "$(basename "$folder"): $2"
  for part in out err status; do
    diff -u --label "wanted $part" --label "$part" "$scratch/want_$part" "$scratch/$part"
  done
}

example() {
  local folder=$1 command='' line
  while IFS= read -r line || [ -n "$line" ]; do
    case $line in
      '#'* | '') ;;
      '$' | '$ '*)
        command=${line#'$'} command=${command# }
        : >"$scratch/want_out"
        : >"$scratch/want_err"
        ;;
      '< '*) cat "$folder/${line#'< '}" >>"$scratch/want_out" ;;
      '2> '*) printf '%s\n' "${line#'2> '}" >>"$scratch/want_err" ;;
      '= '*)
        printf '%s\n' "${line#'= '}" >"$scratch/want_status"
        compare "$folder" "$command"
        ;;
      *) printf '%s\n' "$line" >>"$scratch/want_out" ;;
    esac
  done <"$folder/run"
}

# starts the nodes of an example in a copy of its folder, and compares how each ends and its journal with what is wanted;
# a node whose program is done says so on standard error, and nothing else; one that has a file of keys, HOST.seals, seals
# what it sends, and one that has a copy of the host file, HOST.toml, reads that
nodes() {
  local folder=$1 copy=$scratch/nodes host at code own
  local hosts=() processes=() seals=()
  rm -rf "$copy"
  cp -r "$folder" "$copy"
  while IFS= read -r host; do
    case $host in
      '#'* | '') continue ;;
    esac
    seals=()
    [ ! -f "$folder/$host.seals" ] || seals=(--seals "$host.seals")
    own=hosts.toml
    [ ! -f "$folder/$host.toml" ] || own=$host.toml
    (cd "$copy" && exec timeout 60 "$node" --program program.jif --hosts "$own" --start start.txt --turns 1000 \
      --host "$host" "${seals[@]}") >"$copy/$host.out" 2>"$copy/$host.err" </dev/null &
    processes+=($!)
    hosts+=("$host")
  done <"$folder/nodes"
  for at in "${!hosts[@]}"; do
    host=${hosts[at]}
    wait "${processes[at]}"
    code=$?
    if [ "$code" -eq 0 ] && [ ! -s "$copy/$host.out" ] && cmp -s "$copy/$host.err" <(echo Done) &&
      cmp -s "$copy/$host.journal" "$folder/journals/$host"; then
      passed=$((passed + 1))
      continue
    fi
    failed=$((failed + 1))
    echo "$(basename "$folder"): the node of $host ended with $code"
    cat "$copy/$host.out" "$copy/$host.err"
    diff -u --label 'wanted journal' --label journal "$folder/journals/$host" "$copy/$host.journal"
  done
}

# starts all nodes of an example in a copy of its folder by one command, and compares what it prints, the journals, the
# script that these are merged into, what its replay prints, and the fields that each host's journal tells by itself
launched() {
  local folder=$1 copy=$scratch/launched host
  rm -rf "$copy"
  cp -r "$folder" "$copy"
  (cd "$copy" && exec timeout 60 "$runner" program.jif hosts.toml start.txt 1000) >"$scratch/out" 2>"$scratch/err" </dev/null
  if [ "$?" -eq 0 ] && cmp -s "$scratch/out" "$folder/launched"; then
    passed=$((passed + 1))
  else
    failed=$((failed + 1))
    echo "$(basename "$folder"): its nodes were not launched"
    cat "$scratch/out" "$scratch/err"
  fi
  for host in "$folder"/journals/*; do
    host=$(basename "$host")
    if cmp -s "$copy/$host.journal" "$folder/journals/$host"; then
      passed=$((passed + 1))
      continue
    fi
    failed=$((failed + 1))
    echo "$(basename "$folder"): the launched node of $host has another journal"
    diff -u --label 'wanted journal' --label journal "$folder/journals/$host" "$copy/$host.journal"
  done
  (cd "$copy" && "$merged" program.jif hosts.toml start.txt $(sed -n '/^#/d; s/$/.journal/p' nodes) >merged.script 2>"$scratch/err" &&
    "$program" replay program.jif hosts.toml merged.script) >"$scratch/out" 2>>"$scratch/err" </dev/null
  if cmp -s "$copy/merged.script" "$folder/merged" && cmp -s "$scratch/out" "$folder/replayed"; then
    passed=$((passed + 1))
  else
    failed=$((failed + 1))
    echo "$(basename "$folder"): the journals of its nodes were not merged, or not replayed"
    cat "$scratch/err"
    diff -u --label 'wanted script' --label script "$folder/merged" "$copy/merged.script"
    diff -u --label 'wanted report' --label report "$folder/replayed" "$scratch/out"
  fi
  (cd "$copy" && for host in $(sed '/^#/d' nodes); do
    "$fields" --program program.jif hosts.toml "$host" start.txt "$host.journal"
  done) >"$scratch/out" 2>"$scratch/err" </dev/null
  if cmp -s <(sort "$scratch/out") <(grep '^field ' "$folder/replayed" | sort); then
    passed=$((passed + 1))
    return
  fi
  failed=$((failed + 1))
  echo "$(basename "$folder"): the journals of its hosts tell other fields"
  cat "$scratch/out" "$scratch/err"
}
