grammar Plans

entry Plan: (tasks+=Task | milestones+=Milestone)*;

type Step = Task | Milestone;

Task: 'task' name=ID 'takes' time=Time After?;

Milestone: 'task' name=ID After;

fragment After: 'after' needs+=[Step:ID] (',' needs+=[Step:ID])*;

Time: Part ({infer Sum.left=current} operator=('+' | '-') right=Part)*;

Part infers Time: {infer Days} count=INT 'days' | {infer Same} task=[Task:ID] | '(' Time ')';

hidden terminal WS: /\s+/;
hidden terminal COMMENT: /#[^\n\r]*/;
terminal ID: /[_a-zA-Z]\w*/;
terminal INT returns number: /[0-9]+/;
