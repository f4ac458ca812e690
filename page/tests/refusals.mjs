// Edits of the example, each with the word that refuses it: [word, file, what stands there, what is put in its place]. All words are there but those
// of what a page has not: folders and files that cannot be read, files that are too long or too many, axes and columns that come by words.
const [PARTS, BENEFIT, INPUTS, ENTITIES] = ['variables/parts.py', 'variables/housing_benefit.py', 'variables/inputs.py', 'entities.py'];
const PARAMETERS = 'parameters/housing_benefit', SHARE = `${PARAMETERS}/rent_share.yaml`, SCALE = `${PARAMETERS}/income_reduction.yaml`, LEAST = `${PARAMETERS}/smallest_amount.yaml`;
const [ONE, TESTS, GRID, FAMILY] = ['applicant.yaml', 'tests.yaml', 'grid.yaml', 'family.yaml'];
const SUM = 'return household.sum(household.members("salary", period))';

const RULES = [
  ['Syntax', PARTS, SUM, SUM.slice(0, -1)],
  ['Indent', PARTS, '    label = "Salaries', '     label = "Salaries'],
  ['Unsupported', PARTS, 'has_low_income & has_low_savings', 'has_low_income and has_low_savings'],
  ['TooDeep', PARTS, SUM, `return ${'abs('.repeat(125)}1${')'.repeat(125)}`],
  ['UnknownName', PARTS, 'household("rent", period), highest_rent)', 'household("rent", period), highest_rents)'],
  ['UnknownVariable', PARTS, '"salary"', '"sallary"'],
  ['UnknownParameter', PARTS, '.rent_ceiling', '.rent_ceilings'],
  ['BadType', PARTS, 'has_low_income & has_low_savings', 'has_low_income - has_low_savings'],
  ['BadLevel', PARTS, SUM, 'return household.members("salary", period)'],
  ['BadAttribute', PARTS, 'value_type = float', 'value_types = float'],
  ['DuplicateName', PARTS, 'class eligible_rent', 'class child_supplement'],
  ['BadParameter', SHARE, '2024-01-01', '2024-13-01'],
  ['Tab', SHARE, '    value: 0.6', '\tvalue: 0.6'],
  ['BadIndent', SHARE, '    value: 0.6', ' value: 0.6'],
  ['DuplicateKey', SHARE, 'unit: /1', 'unit: /1\nunit: /1'],
  ['BadFlow', SHARE, 'unit: /1', 'unit: [/1'],
  ['Unsupported', SHARE, 'unit: /1', 'unit: &one /1'],
  ['TooDeep', SHARE, 'unit: /1', `unit: ${'['.repeat(17)}${']'.repeat(17)}`],
  ['BadQuote', SHARE, 'unit: /1', 'unit: "/1'],
];
const SITUATIONS = [
  ['UnknownEntity', ONE, 'households:', 'household_s:'],
  ['UnknownVariable', ONE, 'salary: 1450', 'sallary: 1450'],
  ['UnknownPerson', ONE, 'children: child', 'children: chid'],
  ['PersonTwice', ONE, 'children: child', 'children: [child, applicant]'],
  ['RoleFull', ENTITIES, '"plural": "parents"', '"max": 1, "plural": "parents"', [FAMILY]],
  ['BadValue', ONE, 'age: 34', 'age: old'],
  ['PeriodMismatch', ONE, 'savings: {2025: 2500}', 'savings: {2025-03: 2500}'],
  ['InconsistentInput', ONE, 'salary: 1450', 'salary: {2025: 1200, 2025-01: 1000, month:2025-01:12: 5}'],
  ['BadKey', ONE, 'period: 2025-03', 'periods: 2025-03'],
  ['BadColumn', ONE, 'passes_means_test]', 'passes_means_tests]'],
];
const VALUES = [
  ['ZeroDivisor', PARTS, SUM, 'return 1 / (household.nb_persons() - household.nb_persons())', [ONE]],
  ['ParameterUndefined', LEAST, '2024-01-01:\n    value: 20\n  2025-01-01', '2026-01-01', [ONE]],
  ['Cycle', PARTS, SUM, 'return household("household_income", period)', [ONE]],
  ['TooWide', PARTS, SUM, 'return household("rent", period) * 9000000000000000000', [ONE]],
  ['NoMember', PARTS, SUM, 'return household.max(household.members("salary", period), role=Household.CHILD)', ['alone.yaml']],
  ['PeriodOutOfRange', PARTS, SUM, 'return household("rent", period.offset(-3000, "year"))', [ONE]],
  ['PeriodMismatch', PARTS, 'household("savings", period.this_year)', 'household("savings", period)', [ONE]],
  ['TooDeep', PARTS, SUM, 'return household("household_income", period.last_month)', [ONE]],
  ['BadScale', SCALE, 'value: 600', 'value: 0', [ONE]],
];
const OTHERS = [
  ['BadOutput', TESTS, 'eligible_rent: [630, 630]', 'eligible_rent: [630]'],
  ['UseReform', TESTS, '- name: a person alone', '- reforms: x\n  name: a person alone'],
  ['BadTest', TESTS, 'period: 2025-03', 'periods: 2025-03'],
  ['BadColumn', GRID, 'columns: [housing_benefit, income_reduction]', 'columns: [housing_benefits]'],
  ['NoAxes', GRID, 'axes:\n- - {name: salary, count: 7, min: 0, max: 2400}     # of Ines; turns fastest\n- - {name: rent, count: 4, min: 300, max: 900}', 'axes: []'],
  ['BadCount', GRID, 'count: 7', 'count: 0'],
  ['BadBound', GRID, 'max: 2400', 'max: 99999999999'],
  ['CountsDiffer', GRID, '- - {name: rent', '  - {name: rent'],
  ['TooLarge', GRID, '- - {name: salary, count: 7', '- - {name: savings, period: 2025, count: 1048576, min: 0, max: 9}\n- - {name: salary, count: 1048576'],
  ['AxisOverlap', GRID, '{name: rent', '{name: salary'],
  ['UnknownVariable', GRID, '{name: rent', '{name: rents'],
  ['PeriodMismatch', GRID, '{name: rent', '{name: savings, period: "2025-03"'],
  ['BadNeutral', GRID, 'axes:', 'neutralize: [rents]\naxes:'],
  ['BadIndex', GRID, 'count: 7', 'index: 9, count: 7'],
  ['BadCondition', GRID, 'housing_benefit > 0', 'housing_benefit >'],
];
// a situation without children
export const alone = 'period: 2025-03\ninput:\n  persons: {Ada: {}}\n  households: {home: {parents: Ada}}\ncolumns: household_income\n';
export const refusals = [...RULES, ...SITUATIONS, ...VALUES, ...OTHERS];
