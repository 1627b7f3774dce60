// Connects by pgx and by lib/pq with nothing but the variables of the environment, and prints the sum that each gets.
package main

import (
	"context"
	"database/sql"
	"fmt"
	"os"

	"github.com/jackc/pgx/v4"
	_ "github.com/lib/pq"
)

func check(err error) {
	if err != nil {
		fmt.Println(err)
		os.Exit(1)
	}
}

func main() {
	var sum int
	ctx := context.Background()
	connection, err := pgx.Connect(ctx, "")
	check(err)
	check(connection.QueryRow(ctx, "SELECT $1::int + 1", 41).Scan(&sum))
	check(connection.Close(ctx))
	fmt.Println(sum)
	db, err := sql.Open("postgres", "")
	check(err)
	check(db.QueryRow("SELECT $1::int + 2", 40).Scan(&sum))
	check(db.Close())
	fmt.Println(sum)
}
