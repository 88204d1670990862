Content-Length: 107

{"jsonrpc":"2.0","id":1,"method":"initialize","params":{"processId":null,"rootUri":null,"capabilities":{}}}Content-Length: 377

{"jsonrpc":"2.0","method":"textDocument/didOpen","params":{"textDocument":{"uri":"file:///books.entities","languageId":"entities","version":1,"text":"datatype Text\n\nentity Person {\n    name: Text\n    many friends: Person\n}\n\n/* A person who writes. */\nentity Author extends Person {\n    many books: Book\n}\n\nentity Book {\n    title: Text\n    author: Author\n}\n"}}}Content-Length: 192

{"jsonrpc":"2.0","id":2,"method":"textDocument/references","params":{"textDocument":{"uri":"file:///books.entities"},"position":{"line":2,"character":7},"context":{"includeDeclaration":true}}}Content-Length: 44

{"jsonrpc":"2.0","id":3,"method":"shutdown"}Content-Length: 33

{"jsonrpc":"2.0","method":"exit"}