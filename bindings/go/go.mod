module qaudit

go 1.19
