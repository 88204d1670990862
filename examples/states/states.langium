// State machines: a model is a list of states, and each state names the states that follow it.
grammar States

import './terminals'

entry Model:
    'model' name=ID
    states+=State*;

State:
    'state' name=ID ('to' next+=[State:ID])* 'end';
