//! The program pg_record.
#![forbid(unsafe_code)]

fn main() {
    pg_record::main()
}
