// Speaks by pgx, with a pool of four connections in any order, a batch and COPY, and prints what it hears.
package main

import (
	"context"
	"fmt"
	"math/rand"
	"os"
	"sort"
	"sync"
	"time"

	"github.com/jackc/pgx/v4"
	"github.com/jackc/pgx/v4/pgxpool"
)

func check(err error) {
	if err != nil {
		fmt.Println(err)
		os.Exit(1)
	}
}

func main() {
	ctx := context.Background()
	url := fmt.Sprintf("postgres://postgres@%s:%s/postgres?sslmode=disable&application_name=go&search_path=public",
		os.Getenv("PGHOST"), os.Getenv("PGPORT"))
	conn, err := pgx.Connect(ctx, url)
	check(err)
	_, err = conn.Exec(ctx, "CREATE TEMPORARY TABLE said (id int, word text)")
	check(err)
	batch := &pgx.Batch{}
	for i := 0; i < 5; i++ {
		batch.Queue("INSERT INTO said VALUES ($1, $2)", i, fmt.Sprint("word ", i))
	}
	check(conn.SendBatch(ctx, batch).Close())
	count, err := conn.CopyFrom(ctx, pgx.Identifier{"said"}, []string{"id", "word"},
		pgx.CopyFromRows([][]interface{}{{5, "copied"}, {6, nil}}))
	check(err)
	var sum int
	check(conn.QueryRow(ctx, "SELECT sum(id) FROM said WHERE id > $1", 1).Scan(&sum))
	fmt.Println(count, sum)
	_, err = conn.Exec(ctx, "SELECT 1 / $1::int", 0)
	fmt.Println(err)
	check(conn.Close(ctx))

	pool, err := pgxpool.Connect(ctx, url+"&pool_max_conns=4&pool_min_conns=4")
	check(err)
	var open [4]*pgxpool.Conn
	for i := range open {
		open[i], err = pool.Acquire(ctx)
		check(err)
	}
	for i := range open {
		open[i].Release()
	}
	rand.Seed(time.Now().UnixNano())
	answers := make([]int, 30)
	var group sync.WaitGroup
	for _, i := range rand.Perm(30) {
		group.Add(1)
		go func(i int) {
			defer group.Done()
			check(pool.BeginFunc(ctx, func(tx pgx.Tx) error {
				return tx.QueryRow(ctx, "SELECT $1::int * 2", i).Scan(&answers[i])
			}))
		}(i)
	}
	group.Wait()
	pool.Close()
	sort.Ints(answers)
	fmt.Println(answers)
}
