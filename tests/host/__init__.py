"""The host, `rv host`, from outside: what it does beside `rv serve`, hostile peers, a hostile system, and for long."""
