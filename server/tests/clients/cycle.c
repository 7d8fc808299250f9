/* A cycle by MariaDB's library for C; prints what `test_clients` expects. */
#include <mysql.h>
#include <stdio.h>
#include <stdlib.h>
#include <string.h>

static unsigned port;

static MYSQL *open_one(void)
{
    MYSQL *db = mysql_init(NULL);
    if (!mysql_real_connect(db, "127.0.0.1", "root", "", "db", port, NULL, 0)) {
        printf("not connected: %s\n", mysql_error(db));
        exit(1);
    }
    return db;
}

static void done(MYSQL *db, const char *text)
{
    if (mysql_query(db, text)) {
        printf("refused %u\n", mysql_errno(db));
    }
}

static void show(const char *what, const char *data, unsigned long length)
{
    printf("%s ", what);
    for (unsigned long at = 0; at < length; at++) {
        printf("%02x", (unsigned char)data[at]);
    }
    printf("\n");
}

static void show_value(MYSQL *db, const char *what, const char *text)
{
    done(db, text);
    MYSQL_RES *rows = mysql_store_result(db);
    MYSQL_ROW row = mysql_fetch_row(rows);
    show(what, row[0], mysql_fetch_lengths(rows)[0]);
    mysql_free_result(rows);
}

static void cycle(MYSQL *db)
{
    done(db, "XA START X'6700','b',7");
    static const char put[] = "PUT 'k','\\0\n\\'\xff\\\\'";
    if (mysql_real_query(db, put, sizeof put - 1)) {
        printf("refused %u\n", mysql_errno(db));
    }
    done(db, "XA END X'6700','b',7");
    done(db, "XA PREPARE X'6700','b',7");
    done(db, "XA RECOVER");
    MYSQL_RES *rows = mysql_store_result(db);
    MYSQL_ROW row = mysql_fetch_row(rows);
    char what[64];
    snprintf(what, sizeof what, "listed %s %s %s", row[0], row[1], row[2]);
    show(what, row[3], mysql_fetch_lengths(rows)[3]);
    mysql_free_result(rows);
    done(db, "XA COMMIT X'6700','b',7");
    show_value(db, "value", "GET 'k'");
    done(db, "XA END 'none'");
    done(db, "NONSENSE");
    mysql_autocommit(db, 0);
    done(db, "PUT 'l','local'");
    mysql_commit(db);
    show_value(db, "local", "GET 'l'");
    mysql_rollback(db);
    mysql_autocommit(db, 1);
}

static MYSQL_BIND text_of(char *data, unsigned long length)
{
    MYSQL_BIND it;
    memset(&it, 0, sizeof it);
    it.buffer_type = MYSQL_TYPE_STRING;
    it.buffer = data;
    it.buffer_length = length;
    return it;
}

static void prepared(MYSQL *db)
{
    MYSQL_BIND words[2] = {text_of("p", 1), text_of("p\n'", 3)};
    MYSQL_STMT *put = mysql_stmt_init(db), *get = mysql_stmt_init(db);
    char value[64];
    unsigned long length;
    MYSQL_BIND result = text_of(value, sizeof value);
    result.length = &length;
    if (mysql_stmt_prepare(put, "PUT ?,?", 7) || mysql_stmt_bind_param(put, words) || mysql_stmt_execute(put)
        || mysql_stmt_prepare(get, "GET ?", 5) || mysql_stmt_bind_param(get, words) || mysql_stmt_execute(get)
        || mysql_stmt_bind_result(get, &result) || mysql_stmt_fetch(get)) {
        printf("not prepared: %s%s\n", mysql_stmt_error(put), mysql_stmt_error(get));
    }
    show("prepared", value, length);
    mysql_stmt_close(put);
    mysql_stmt_close(get);
}

static void thirty(void)
{
    MYSQL *pool[30];
    char text[64];
    for (int number = 0; number < 30; number++) {
        const char *forms[] = {"XA START 'p%d'", "PUT 'row %d','v'", "XA END 'p%d'", "XA PREPARE 'p%d'"};
        pool[number] = open_one();
        for (int form = 0; form < 4; form++) {
            snprintf(text, sizeof text, forms[form], number);
            done(pool[number], text);
        }
    }
    done(pool[0], "XA RECOVER");
    MYSQL_RES *rows = mysql_store_result(pool[0]);
    printf("thirty %d\n", (int)mysql_num_rows(rows));
    mysql_free_result(rows);
    for (int number = 0; number < 30; number++) {
        snprintf(text, sizeof text, "XA COMMIT 'p%d'", 29 - number);
        done(pool[number], text);
        mysql_close(pool[number]);
    }
}

int main(int count, char **words)
{
    port = (unsigned)atoi(words[count - 1]);
    MYSQL *db = open_one();
    cycle(db);
    prepared(db);
    mysql_close(db);
    thirty();
    return 0;
}
