# Sourced by scripts that read databases, and have the separator of columns in $separator: ask DB SQL prints a line for
# each row. It needs sqlite3, or python3.
if command -v sqlite3 >/dev/null; then
    ask() { sqlite3 -batch -noheader -list -separator "$separator" "$1" "$2"; }
else
    # Python takes one statement at a time, and that of a trigger has semicolons in it.
    ask() {
        python3 -c 'import sqlite3, sys
db, statement = sqlite3.connect(sys.argv[1], isolation_level=None), ""
for part in sys.argv[2].split(";"):
    statement += part + ";"
    if sqlite3.complete_statement(statement):
        for row in db.execute(statement): print(*("" if one is None else one for one in row), sep=sys.argv[3])
        statement = ""' "$1" "$2" "$separator"
    }
fi
