"""Completes the paper's table 2 1, 0 2 and prints the completed rows; writes its bundle, opens it and prints both."""

import rocaplanh

TABLE = [(2, 1), (0, 2)]

for row in rocaplanh.complete(2, TABLE):
    print(*row)

bundle = rocaplanh.write_bundle(2, [TABLE])
print(*bundle)
n, tables = rocaplanh.open_tables(bundle)
for row in tables[0]:
    print(*row)
