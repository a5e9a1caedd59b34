# Judges the script SCRIPT by the policy POLICY for a CI service, beside the script that the commit BASE has, if there is one, or step by step where
# CHANGE is a change. The words behind it are those of mstplan-ci. The program is that of the package which has this file.
set -eu
here=$(cd "$(dirname "$0")" && pwd)
PATH="$here/../../../bin:$PATH"
if [ -n "${CHANGE:-}" ]; then
    set -- "$@" --change "$CHANGE"
elif [ -n "${BASE:-}" ]; then
    before=$(mktemp)
    trap 'rm -f "$before"' EXIT
    git cat-file -e "$BASE" 2> /dev/null || git fetch --quiet --depth=1 origin "$BASE" 2> /dev/null || true
    if git show "$BASE:./$SCRIPT" > "$before" 2> /dev/null; then
        set -- "$@" --base "$before"
    else
        echo "no $SCRIPT in commit $BASE: it is judged alone" >&2
    fi
fi
mstplan-ci --run mstplan "$@" -- "$SCRIPT" "$POLICY"
