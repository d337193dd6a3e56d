# Single items: invoices, a stream, a message, or two tables. The program reads the words of the call itself.

item() { # WORD..
    # the program could not tell a closed input from an empty one
    need_open_input
    need items
    exec "$programs/items" "$word" "$@"
}
