grammar Plans

entry Plan: tasks+=Task*;

Task: 'task' name=ID 'takes' time=Time ('after' needs+=[Task:ID] (',' needs+=[Task:ID])*)?;

Time: left=Time operator=('+' | '-') right=Part | Part;

Part infers Time: {infer Days} count=INT 'days' | {infer Same} task=[Task:ID] | '(' Time ')';

hidden terminal WS: /\s+/;
terminal ID: /[_a-zA-Z]\w*/;
terminal INT returns number: /[0-9]+/;
