%token <nat> NUM
%token PLUS TIMES OPEN CLOSE EOF
%start <expression> parse_expression
%type <expression> sum product factor
%{
From Coq Require Import List.
Inductive expression := number (n : nat) | plus (a b : expression) | times (a b : expression).
%}
%%
parse_expression: e = sum EOF { e }
sum:
| a = sum PLUS b = product { plus a b }
| e = product { e }
product:
| a = product TIMES b = factor { times a b }
| e = factor { e }
factor:
| n = NUM { number n }
| OPEN e = sum CLOSE { e }
