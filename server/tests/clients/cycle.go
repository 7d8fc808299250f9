// A cycle by Go's driver, its transactions with levels, and thirty connections of its pool at once; prints what
// `test_clients` expects.
package main

import (
	"context"
	"database/sql"
	"encoding/hex"
	"fmt"
	"os"
	"sync"

	"github.com/go-sql-driver/mysql"
)

func must(err error) {
	if err != nil {
		fmt.Println("failed", err)
		os.Exit(1)
	}
}

func value(db interface {
	QueryRowContext(context.Context, string, ...interface{}) *sql.Row
}, text string, words ...interface{}) string {
	var found []byte
	must(db.QueryRowContext(context.Background(), text, words...).Scan(&found))
	return hex.EncodeToString(found)
}

func cycle(db *sql.DB) {
	ctx := context.Background()
	one, err := db.Conn(ctx)
	must(err)
	defer one.Close()
	ask := func(text string, words ...interface{}) {
		_, err := one.ExecContext(ctx, text, words...)
		must(err)
	}
	xid := "X'6700','b',7"
	ask("XA START " + xid)
	ask("PUT ?,?", "k", []byte{0, 10, 39, 255, 92})
	ask("XA END " + xid)
	ask("XA PREPARE " + xid)
	var number, gtrid, bqual int
	var data []byte
	must(one.QueryRowContext(ctx, "XA RECOVER").Scan(&number, &gtrid, &bqual, &data))
	fmt.Println("listed", number, gtrid, bqual, hex.EncodeToString(data))
	ask("XA COMMIT " + xid)
	fmt.Println("value", value(one, "GET 'k'"))
	for _, text := range []string{"XA END 'none'", "NONSENSE"} {
		_, err := one.ExecContext(ctx, text)
		if refused, is := err.(*mysql.MySQLError); is {
			fmt.Println("refused", refused.Number)
		}
	}
	work, err := one.BeginTx(ctx, nil)
	must(err)
	_, err = work.Exec("PUT 'l','local'")
	must(err)
	must(work.Commit())
	fmt.Println("local", value(one, "GET 'l'"))
	ask("PUT ?,?", "p", "p\n'")
	fmt.Println("prepared", value(one, "GET ?", "p"))
}

func levels(db *sql.DB) {
	count := 0
	for _, level := range []sql.IsolationLevel{
		sql.LevelReadUncommitted, sql.LevelReadCommitted, sql.LevelRepeatableRead, sql.LevelSerializable} {
		work, err := db.BeginTx(context.Background(),
			&sql.TxOptions{Isolation: level, ReadOnly: level == sql.LevelReadCommitted})
		must(err)
		must(work.Rollback())
		count++
	}
	fmt.Println("levels", count)
}

func pool(db *sql.DB) {
	db.SetMaxOpenConns(30)
	var group sync.WaitGroup
	for number := 0; number < 30; number++ {
		group.Add(1)
		go func(number int) {
			defer group.Done()
			one, err := db.Conn(context.Background())
			must(err)
			defer one.Close()
			for turn := 0; turn < 5; turn++ {
				xid := fmt.Sprintf("'%d %d'", number, turn)
				for _, text := range []string{"XA START " + xid, fmt.Sprintf("PUT 'row %d','%d'", number, turn),
					"XA END " + xid, "XA PREPARE " + xid, "XA COMMIT " + xid} {
					_, err := one.ExecContext(context.Background(), text)
					must(err)
				}
			}
		}(number)
	}
	group.Wait()
	fmt.Println("pool 30")
}

func main() {
	db, err := sql.Open("mysql", "root@tcp(127.0.0.1:"+os.Args[1]+")/db")
	must(err)
	cycle(db)
	levels(db)
	pool(db)
}
