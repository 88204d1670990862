Content-Length: 107

{"jsonrpc":"2.0","id":1,"method":"initialize","params":{"processId":null,"rootUri":null,"capabilities":{}}}Content-Length: 184

{"jsonrpc":"2.0","method":"textDocument/didOpen","params":{"textDocument":{"uri":"file:///hall.txt","languageId":"states","version":1,"text":"model hall\nstate below to above end\n"}}}Content-Length: 188

{"jsonrpc":"2.0","method":"textDocument/didOpen","params":{"textDocument":{"uri":"file:///stairs.txt","languageId":"states","version":1,"text":"model stairs\nstate above to below end\n"}}}Content-Length: 149

{"jsonrpc":"2.0","id":2,"method":"textDocument/definition","params":{"textDocument":{"uri":"file:///hall.txt"},"position":{"line":1,"character":17}}}Content-Length: 166

{"jsonrpc":"2.0","id":3,"method":"textDocument/rename","params":{"textDocument":{"uri":"file:///hall.txt"},"position":{"line":1,"character":17},"newName":"upstairs"}}Content-Length: 163

{"jsonrpc":"2.0","id":4,"method":"textDocument/rename","params":{"textDocument":{"uri":"file:///hall.txt"},"position":{"line":1,"character":17},"newName":"below"}}Content-Length: 44

{"jsonrpc":"2.0","id":5,"method":"shutdown"}Content-Length: 33

{"jsonrpc":"2.0","method":"exit"}