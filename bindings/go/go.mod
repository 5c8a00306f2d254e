module example.org/fowharimu

go 1.19
