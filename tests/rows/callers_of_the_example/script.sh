# The script that README names.
cat "$(dirname "${BASH_SOURCE[0]}")/../../../examples/callers.script"
