/* Keeps bodies in a table of a database in memory, reads and drops them, by the same statements as a keeper over a table:
   main COUNT ROOM SIZE. Whenever ROOM bodies are kept, and at the end, all are read and dropped. */
#include <sqlite3.h>
#include <stdio.h>
#include <stdlib.h>
#include <string.h>

static sqlite3_stmt *prepared(sqlite3 *database, const char *text) {
    sqlite3_stmt *statement;
    if (sqlite3_prepare_v2(database, text, -1, &statement, NULL) != SQLITE_OK) exit(1);
    return statement;
}

static void wanted(int answer, int is) {
    if (answer != is) exit(1);
}

int main(int count_of_words, char **words) {
    if (count_of_words != 4) return 2;
    long long count = atoll(words[1]), room = atoll(words[2]), size = atoll(words[3]), first = 1, next = 1, sum = 0;
    unsigned char *body = malloc(size), *copy = malloc(size);
    for (long long i = 0; i < size; i++) body[i] = (unsigned char)i;
    sqlite3 *database;
    wanted(sqlite3_open(":memory:", &database), SQLITE_OK);
    wanted(sqlite3_exec(database,
        "CREATE TABLE kept (number INTEGER PRIMARY KEY, form INTEGER NOT NULL, body BLOB NOT NULL) STRICT",
        NULL, NULL, NULL), SQLITE_OK);
    sqlite3_stmt *insert = prepared(database, "INSERT INTO kept (number, form, body) VALUES (?1, ?2, ?3)");
    sqlite3_stmt *select = prepared(database, "SELECT form, body FROM kept WHERE number = ?1");
    sqlite3_stmt *delete = prepared(database, "DELETE FROM kept WHERE number = ?1");
    while (next <= count || first < next) {
        if (next <= count && next - first < room) {
            sqlite3_bind_int64(insert, 1, next);
            sqlite3_bind_int64(insert, 2, next % 5);
            sqlite3_bind_blob(insert, 3, body, (int)size, SQLITE_STATIC);
            wanted(sqlite3_step(insert), SQLITE_DONE);
            sqlite3_reset(insert);
            next++;
            continue;
        }
        for (; first < next; first++) {
            sqlite3_bind_int64(select, 1, first);
            wanted(sqlite3_step(select), SQLITE_ROW);
            sum += sqlite3_column_int64(select, 0);
            wanted(sqlite3_column_bytes(select, 1), (int)size);
            memcpy(copy, sqlite3_column_blob(select, 1), size);
            sum += copy[size - 1];
            sqlite3_reset(select);
            sqlite3_bind_int64(delete, 1, first);
            wanted(sqlite3_step(delete), SQLITE_DONE);
            sqlite3_reset(delete);
        }
    }
    printf("%lld\n", sum);
    return 0;
}
