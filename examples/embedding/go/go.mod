module sender

go 1.19

require qaudit v0.0.0

replace qaudit => ../../../bindings/go
