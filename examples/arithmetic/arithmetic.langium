// Named sums and products of numbers. Precedence comes from the order of the rules, and what stands to the left
// of an operator goes into the node of the operation by an action.
grammar Arithmetic

entry Program: definitions+=Definition*;

Definition: 'let' name=ID '=' value=Sum ';';

Sum infers Expression: Product ({infer Operation.left=current} operator=('+' | '-') right=Product)*;

Product infers Expression: Primary ({infer Operation.left=current} operator=('*' | '/') right=Primary)*;

Primary infers Expression: '(' Sum ')' | {infer Literal} value=NUMBER | {infer Use} definition=[Definition:ID];

hidden terminal WS: /\s+/;
hidden terminal COMMENT: /\/\/[^\n\r]*/;
terminal ID: /[_a-zA-Z][\w_]*/;
terminal NUMBER returns number: /[0-9]+(\.[0-9]+)?/;
