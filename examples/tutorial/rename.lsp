Content-Length: 107

{"jsonrpc":"2.0","id":1,"method":"initialize","params":{"processId":null,"rootUri":null,"capabilities":{}}}Content-Length: 225

{"jsonrpc":"2.0","method":"textDocument/didOpen","params":{"textDocument":{"uri":"file:///garden.plan","languageId":"plan","version":1,"text":"task beds takes 3 days after walls\ntask lawn takes beds + 2 days after beds\n"}}}Content-Length: 251

{"jsonrpc":"2.0","method":"textDocument/didOpen","params":{"textDocument":{"uri":"file:///house.plan","languageId":"plan","version":1,"text":"task walls takes 20 days\ntask roof takes walls - 12 days after walls\nmilestone moved after roof, lawn\n"}}}Content-Length: 168

{"jsonrpc":"2.0","id":2,"method":"textDocument/rename","params":{"textDocument":{"uri":"file:///house.plan"},"position":{"line":0,"character":5},"newName":"brickwork"}}Content-Length: 163

{"jsonrpc":"2.0","id":3,"method":"textDocument/rename","params":{"textDocument":{"uri":"file:///house.plan"},"position":{"line":0,"character":5},"newName":"beds"}}Content-Length: 163

{"jsonrpc":"2.0","id":4,"method":"textDocument/rename","params":{"textDocument":{"uri":"file:///house.plan"},"position":{"line":0,"character":5},"newName":"task"}}Content-Length: 44

{"jsonrpc":"2.0","id":5,"method":"shutdown"}Content-Length: 33

{"jsonrpc":"2.0","method":"exit"}