// Connects by node-pg with nothing but the variables of the environment, and prints a sum.
"use strict";

const { Pool } = require("pg");

const pool = new Pool();
pool.query("SELECT $1::int + 1 AS sum", [41]).then((result) => {
  console.log(result.rows[0].sum);
  return pool.end();
});
