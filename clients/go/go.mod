module fabcommit

go 1.19
