grammar F
entry Model: 'model' name=ID;
hidden terminal WS: /\s+/;
terminal ID: /[_a-zA-Z][\w_]*/;
