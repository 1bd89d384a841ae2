"""What holds the documents to the project: each module finds one kind of fault."""
