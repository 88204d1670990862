// Entities with features, which have the type of an entity or of a data type.
grammar Entities

entry Model: (types+=DataType | entities+=Entity)*;

DataType: 'datatype' name=ID;

Entity: 'entity' name=ID ('extends' base=[Entity:ID])? '{' features+=Feature* '}';

Feature: many?='many'? name=ID ':' type=[Type:ID];

type Type = DataType | Entity;

hidden terminal WS: /\s+/;
hidden terminal COMMENT: /\/\*[\s\S]*?\*\//;
terminal ID: /[_a-zA-Z][\w_]*/;
