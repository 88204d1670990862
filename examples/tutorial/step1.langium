grammar Plans

entry Plan: tasks+=Task*;

Task: 'task' name=ID 'takes' time=INT 'days';

hidden terminal WS: /\s+/;
terminal ID: /[_a-zA-Z]\w*/;
terminal INT returns number: /[0-9]+/;
