"""Pictures of plays and accounts, and the words for what stands in them."""
