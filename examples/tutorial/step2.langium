grammar Plans

entry Plan: tasks+=Task*;

Task: 'task' name=ID 'takes' time=INT 'days' ('after' needs+=[Task:ID] (',' needs+=[Task:ID])*)?;

hidden terminal WS: /\s+/;
terminal ID: /[_a-zA-Z]\w*/;
terminal INT returns number: /[0-9]+/;
