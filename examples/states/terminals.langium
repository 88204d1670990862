// The tokens that small languages share: import this file with `import './terminals'`.
hidden terminal SPACE: /\s+/;
hidden terminal COMMENT: /\/\/[^\n\r]*/;
terminal ID: /[_a-zA-Z][\w_]*/;
