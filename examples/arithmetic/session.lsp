Content-Length: 107

{"jsonrpc":"2.0","id":1,"method":"initialize","params":{"processId":null,"rootUri":null,"capabilities":{}}}Content-Length: 254

{"jsonrpc":"2.0","method":"textDocument/didOpen","params":{"textDocument":{"uri":"file:///ring.calc","languageId":"arithmetic","version":1,"text":"// The area of a ring.\nlet inner = 2 * 2;\nlet outer = 3 * 3;\nlet area = (outer - inner) * 3.14159;\n"}}}Content-Length: 162

{"jsonrpc":"2.0","id":2,"method":"textDocument/rename","params":{"textDocument":{"uri":"file:///ring.calc"},"position":{"line":1,"character":4},"newName":"hole"}}Content-Length: 44

{"jsonrpc":"2.0","id":3,"method":"shutdown"}Content-Length: 33

{"jsonrpc":"2.0","method":"exit"}