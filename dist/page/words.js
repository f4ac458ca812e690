export const explanations = {
"AxisOverlap": {
"axes": [
"two axes of one name",
"Do: rename one"
],
"runs": [
"an axis meets an earlier one, or an input, as said above",
"Do: take that input out, or give the axis another period or index"
]
},
"BadAttribute": {
"rules": [
"an attribute or argument is missing, unknown, given twice or not of its form; no entity is the persons (told of entities.py where there is no module)",
"Do: compare it with the table of attributes in LANGUAGE.md, or put entities.py into the folder"
]
},
"BadBound": {
"axes": [
"a count or a bound past its limits",
"Do: take a count from 1 to 1048576, and bounds of at most 10^9 with at most 3 decimals"
],
"runs": [
"a count or a bound past its limits",
"Do: take a count from 1 to 1048576, and bounds of at most 10^9 with at most 3 decimals"
]
},
"BadColumn": {
"calc": [
"a column has not this form, or its variable, member or period is not there",
"Do: write NAME#INDEX@PERIOD, without blanks, with an index from 0 on and a period that the variable has"
],
"runs": [
"a column is none, as in a file of fisca calc",
"Do: write NAME#INDEX@PERIOD, without blanks, with an index from 0 on and a period that the variable has"
]
},
"BadCondition": {
"axes": [
"the condition has not its form, or names no axis",
"Do: write NAME>=NUMBER, or another comparison"
],
"runs": [
"a condition has not this form, or its constant is not of the variable's type",
"Do: write COLUMN >= NUMBER, or another comparison"
]
},
"BadCount": {
"axes": [
"a count or a bound past its limits",
"Do: take a count from 1 to 1048576, and bounds of at most 10^9 with at most 3 decimals"
],
"runs": [
"a count or a bound past its limits",
"Do: take a count from 1 to 1048576, and bounds of at most 10^9 with at most 3 decimals"
]
},
"BadFlow": {
"yaml": [
"a '[' or '{' is not closed in its line, {a:1} has no blank behind the colon, or a text begins with ',', ']' or '}'",
"Do: close it in its line, or write a map or list over several lines without brackets; put the text in quotes"
]
},
"BadIndent": {
"yaml": [
"a description or another text goes on in the next line; a line stands one space too far to the right or left",
"Do: write the text in one line, or below '|'; let the entries of a map, and the items of a list, begin in one column"
]
},
"BadIndex": {
"runs": [
"axis by axis: the variable is not there or has no numbers; there is no such member; no period, or one that the variable is given no values for",
"Do: compare the axis with the class and with the input; an index counts from 0"
]
},
"BadKey": {
"calc": [
"another key; a period that is none; columns that are neither a scalar nor a list of scalars; a file that is no map (line 1)",
"Do: write period: 2017-01, input and columns"
],
"runs": [
"another key; no axes (line 1), or an axis without name, count, min or max (line 1)",
"Do: compare it with the keys that fisca run --help lists",
"of a value: a value of another shape: a number that is none, a count or an index that is no whole number from 0 to 2^63-1, a period that is none",
"Do: write a plain number, or a period such as 2017-01",
"of a shape: a group or an axis of another shape (the line of axes); columns, filter or neutralize that are neither a scalar nor a list of scalars",
"Do: let axes be a list of groups, and each a list of axes"
]
},
"BadLevel": {
"rules": [
"values of a group's members stand beside the group's own, or are returned; a variable of another entity is asked for",
"Do: put them into sum, any or their kin; ask by person.household(..) or household.members(..)"
]
},
"BadNeutral": {
"runs": [
"a name to neutralise is no variable's, or that of a day or a text",
"Do: compare it with the class"
]
},
"BadOutput": {
"tests": [
"of the shape: output is no map; a list of another length, or for one member",
"Do: write a map of variables, or of entities, with a value for each member",
"of a key: a key is no entity's beside others that are, or an entity stands twice; a name is no variable's that can be asked for, or no member's; an entity's key where there is not just one member",
"Do: compare it with the class and with the test's input",
"of a value: a period at which the variable has no value; a value that is not of its type, or nothing",
"Do: write a value of the variable's type at a period of its own"
]
},
"BadParameter": {
"rules": [
"of a date: values or a date is missing, a date does not exist or has one digit for its month or day",
"Do: correct the line that is told",
"of a key: a key stands beside dates (description beside bare dates: put the dates under values), a bracket has a key of its own, or a byte order mark makes the first key another one",
"Do: correct the line that is told; save the file as UTF-8 without a byte order mark",
"of a value: a value of a scale is no number (010, 1,5, 50%)",
"Do: correct the line that is told"
]
},
"BadPosition": {
"axes": [
"the position of --from or --to is above the number of positions",
"Do: take a position from 0 to the number of positions"
],
"runs": [
"a start or an end above the number of positions",
"Do: ask fisca size"
]
},
"BadQuote": {
"yaml": [
"a quote is not closed in its line, a backslash stands in double quotes (\"C:\\dir\"), or something follows the closing quote",
"Do: use single quotes, and in them two for one"
]
},
"BadScale": {
"rules": [
"two brackets have one threshold at the instant",
"Do: join them, or end one by null"
],
"values": [
"two brackets of a scale have one threshold when the period starts",
"Do: join them, or end one by null"
]
},
"BadTest": {
"tests": [
"another key; no output (the test's first line); a period that is none; a margin that is no number from 0 up; another shape than the table says; an item that is no map",
"Do: compare the line with the keys that fisca test --help lists"
]
},
"BadType": {
"rules": [
"an operand, an argument or what is returned is of another type than the table of functions says: a bool minus a bool, a text in a sum, where with members of two Enums, a variable of type str or date in a formula",
"Do: convert it (* 1.0, == E.member), or mend the declaration"
]
},
"BadValue": {
"situations": [
"a value is not of the variable's type; something has another shape than it should, as a person whose map is missing; a share is too wide a number",
"Do: write a number without a unit, true or false, or a member of the Enum, as the variable's type wants it"
]
},
"BadWord": {
"axes": [
"a word has not the form of an axis",
"Do: write NAME=MIN..MAX/COUNT"
],
"explain": [
"a word has not the form of a column, or its variable, member or period is not there",
"Do: write NAME#INDEX@PERIOD, as in the columns of the file"
]
},
"CountsDiffer": {
"runs": [
"the axes of a group have not one count: the first that differs",
"Do: give them one count, or make them groups of their own"
]
},
"Cycle": {
"values": [
"a key needs itself. The key is the first of the chain that comes again",
"Do: let one of them depend on an earlier period, or give an input"
]
},
"DuplicateKey": {
"yaml": [
"an entry was copied and its key left as it was",
"Do: rename or drop the second; its line is told"
]
},
"DuplicateName": {
"rules": [
"taxes.yaml stands beside taxes.yml or the folder taxes; two modules declare one variable, entity, role or member",
"Do: rename or drop one; the later in the order of the paths is told"
]
},
"InconsistentInput": {
"situations": [
"two inputs of one member, variable and period, as 2017-01 and 2017-1; or a divided input that leaves something where no part is free",
"Do: leave one of them out"
]
},
"Indent": {
"rules": [
"in a module: a line is indented by a tab, or deeper or less deep than its block",
"Do: let the lines of a block begin in one column of spaces"
]
},
"NoAxes": {
"runs": [
"no axes, or a group without any",
"Do: write one axis at least, or use fisca calc"
]
},
"NoMember": {
"values": [
"min or max over no person",
"Do: ask nb_persons first, in where"
]
},
"ParameterUndefined": {
"values": [
"a parameter has no value when the period starts, or no bracket of a scale has one",
"Do: add an earlier date, or end the variable"
]
},
"PeriodMismatch": {
"runs": [
"axis by axis: the variable is not there or has no numbers; there is no such member; no period, or one that the variable is given no values for",
"Do: compare the axis with the class and with the input; an index counts from 0"
],
"situations": [
"no period where one is needed, a text that is none, or a period that does not fit the variable",
"Do: write 2017 for a year, 2017-01 for a month, 2017-01-01 for a day"
],
"values": [
"a formula asks for a key whose variable has no value at that period: a month of a YEAR variable without DIVIDE, a year of a MONTH variable without ADD, an ADD over parts that are longer. The key is the one that is asked for",
"Do: use options=[ADD] or [DIVIDE], or another period"
]
},
"PeriodOutOfRange": {
"values": [
"a period is moved out of the years 1 to 9999, or a month or a year by days",
"Do: end the formula's look back by a condition, or by an input"
]
},
"PersonTwice": {
"situations": [
"a person stands in two groups of a kind, or twice in one",
"Do: leave the person in one role of one group"
]
},
"RoleFull": {
"situations": [
"a role has more persons than it may have",
"Do: put some into another role, or raise max in entities.py"
]
},
"Syntax": {
"rules": [
"in a module: a bracket is not closed or closed too often, a quote is not closed, a keyword of Python stands where it has no place, a class or a formula has nothing below it, a formula has no return",
"Do: correct the token that is told; at the end of a text its last one is told"
]
},
"Tab": {
"yaml": [
"a line is indented by a tab",
"Do: indent by spaces"
]
},
"TooDeep": {
"rules": [
"an expression of a module is higher than 120, or a formula has with its locals put in more than 20,000 nodes or a height above 120",
"Do: take a part into a variable"
],
"values": [
"more than a hundred keys need one another in a chain. The key is the one that was asked for: that of the column, the condition or the output",
"Do: give an input in the middle: step: {2008-01: 96}"
],
"yaml": [
"more than 16 lists and maps stand in one another",
"Do: take a part into a file of its own"
]
},
"TooLarge": {
"axes": [
"more than 16 axes, or more than 2^32 positions",
"Do: take smaller counts, or several calls"
],
"runs": [
"more than 16 axes, or more than 2^32 positions",
"Do: take smaller counts, or several files"
]
},
"TooLong": {
"rules": [
"the file has more than 1 MiB",
"Do: divide it"
]
},
"TooMany": {
"situations": [
"more members or inputs than the limits say",
"Do: divide the file"
]
},
"TooManyFiles": {
"rules": [
"a rule set has more than 1,000 files, or its folders hold more than 100,000 files and folders, links followed (no path is told)",
"Do: leave out what is no rule, or divide it; look for a link that leads back"
]
},
"TooWide": {
"rules": [
"a number or a sum has more digits than 63 bits hold",
"Do: write it with fewer digits"
],
"values": [
"a number has a part beyond 2^63-1, or the result of an int variable is no number of 32 bits",
"Do: look for a product of many factors or of unlike fractions; take a smaller unit"
]
},
"Undefined": {
"rules": [
"no bracket of the scale has its threshold and its rate or amount at the instant",
"Do: add an earlier date"
]
},
"UnknownEntity": {
"situations": [
"a key is no entity's beside others that are, or an entity stands twice, by its key and by its plural",
"Do: write the plural of an entity of entities.py, once"
]
},
"UnknownName": {
"rules": [
"a name that no entity, Enum, local or argument of the formula gives: mostly a spelling, or a local that is used above its line",
"Do: compare it with the declaration"
]
},
"UnknownParameter": {
"rules": [
"the text in person(\"...\", period), or the path behind parameters(period), names none that there is; node[e] lacks a child for a member of the Enum",
"Do: compare it with the class, with the file's path and keys"
]
},
"UnknownPerson": {
"situations": [
"a name in a role is no person's; or there is no person at all",
"Do: write the person's name as it stands below the persons"
]
},
"UnknownVariable": {
"rules": [
"the text in person(\"...\", period), or the path behind parameters(period), names none that there is; node[e] lacks a child for a member of the Enum",
"Do: compare it with the class, with the file's path and keys"
],
"runs": [
"axis by axis: the variable is not there or has no numbers; there is no such member; no period, or one that the variable is given no values for",
"Do: compare the axis with the class and with the input; an index counts from 0"
],
"situations": [
"a key below a member is no variable of its entity, and no role of its group",
"Do: compare it with the class; put it below the member whose entity has it"
]
},
"Unsupported": {
"rules": [
"in a module: a form of Python that is left out, or a number with too many digits",
"Do: write where(..) for an if, and '&', '|', '~' in the place of and, or, not; more stands in LANGUAGE.md below What Python has and this has not"
],
"yaml": [
"a text holds a colon and a blank (a: b: c); a text begins with '*', '&', '!', '%' or '@'; a value stands in the line below its key; a file has a second '---'",
"Do: put the text in quotes; put the value beside its key; make one file of each document"
]
},
"UseReform": {
"tests": [
"the key reforms or extensions",
"Do: take it out, and name the folder of the reform by --reform"
]
},
"ZeroDivisor": {
"values": [
"a formula divides by 0",
"Do: take the quotient in where, behind a condition on its divisor"
]
},
"cannot list": {
"rules": [
"the folder or one in it is missing or may not be read or looked at (a link that leads nowhere or in a circle), or a name in it is not UTF-8",
"Do: name the folder that holds parameters and variables"
]
},
"cannot read": {
"rules": [
"a file may not be read, is no regular file, or is no UTF-8 text",
"Do: mend the file, or take it out of the rule set"
]
},
"out of memory": {
"rules": [
"the machine refused memory, or the output was closed",
"Do: run it again"
]
},
"write failed": {
"rules": [
"the machine refused memory, or the output was closed",
"Do: run it again"
]
}
};
