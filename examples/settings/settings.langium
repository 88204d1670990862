// Settings in sections. A section may build on another one, and a value is a text, a number, a switch, a list, or a
// section by its name.
grammar Settings

entry File: sections+=Section*;

Section: '[' name=Path (':' base=[Section:Path])? ']' entries+=Entry*;

Entry: final?='final'? name=ID '=' value=Value;

Value: Text | Number | Switch | List | Link;

Text: text=STRING;

Number: number=NUMBER;

Switch: on?='on' | 'off';

List: '(' values+=Value (',' values+=Value)* ')';

Link: '@' section=[Section:Path];

Path returns string: ID ('.' ID)*;

hidden terminal WS: /\s+/;
hidden terminal COMMENT: /#[^\n\r]*/;
terminal ID: /\^?[_a-zA-Z]\w*/;
terminal STRING: /"(\\.|[^"\\])*"/;
terminal NUMBER returns number: /-?[0-9]+(\.[0-9]+)?/;
