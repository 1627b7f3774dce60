// Speaks by lib/pq over a pool of three connections in any order, with prepared statements and COPY, and prints what it
// hears.
package main

import (
	"context"
	"database/sql"
	"fmt"
	"math/rand"
	"os"
	"sync"
	"time"

	"github.com/lib/pq"
)

func check(err error) {
	if err != nil {
		fmt.Println(err)
		os.Exit(1)
	}
}

func main() {
	db, err := sql.Open("postgres", fmt.Sprintf("host=%s port=%s user=postgres dbname=postgres sslmode=disable application_name=go",
		os.Getenv("PGHOST"), os.Getenv("PGPORT")))
	check(err)
	db.SetMaxOpenConns(3)
	db.SetMaxIdleConns(3)
	ctx := context.Background()
	var open [3]*sql.Conn
	for i := range open {
		open[i], err = db.Conn(ctx)
		check(err)
	}
	for i := range open {
		check(open[i].Close())
	}
	_, err = db.Exec("DROP TABLE IF EXISTS said_by_pq")
	check(err)
	_, err = db.Exec("CREATE TABLE said_by_pq (id int, word text)")
	check(err)
	tx, err := db.Begin()
	check(err)
	copying, err := tx.Prepare(pq.CopyIn("said_by_pq", "id", "word"))
	check(err)
	for i := 0; i < 10; i++ {
		_, err = copying.Exec(i, fmt.Sprint("word ", i))
		check(err)
	}
	_, err = copying.Exec()
	check(err)
	check(copying.Close())
	check(tx.Commit())
	rand.Seed(time.Now().UnixNano())
	words := make([]string, 10)
	var group sync.WaitGroup
	for _, i := range rand.Perm(10) {
		group.Add(1)
		go func(i int) {
			defer group.Done()
			check(db.QueryRow("SELECT word FROM said_by_pq WHERE id = $1", i).Scan(&words[i]))
		}(i)
	}
	group.Wait()
	fmt.Println(words)
	_, err = db.Exec("SELECT 1 / $1::int", 0)
	fmt.Println(err)
	check(db.Close())
}
