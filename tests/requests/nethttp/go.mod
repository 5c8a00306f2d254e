module requests

go 1.19

require example.org/fowharimu v0.1.0

replace example.org/fowharimu => ../../../bindings/go
