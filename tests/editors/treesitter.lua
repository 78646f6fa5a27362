-- The tree-sitter grammar in Neovim, without a screen. OB0_PARSER is the compiled parser, OB0_QUERIES the folder of its queries,
-- OB0_GIVEN a file of JSON: texts to parse, the names of queries, and a text for these. What is found goes to OB0_REPORT, as JSON.
local add = vim.treesitter.language.add
if add then -- Neovim 0.9 and later
  add("oberon0", { path = vim.env.OB0_PARSER })
else
  vim.treesitter.require_language("oberon0", vim.env.OB0_PARSER)
end

local function read(path)
  local file = assert(io.open(path))
  local text = file:read("*a")
  file:close()
  return text
end

local function root(text)
  return vim.treesitter.get_string_parser(text, "oberon0"):parse()[1]:root()
end

local given = vim.fn.json_decode(read(vim.env.OB0_GIVEN))
local found = { faulty = {}, trees = {}, captures = {} }
for at, text in ipairs(given.texts) do
  found.faulty[at] = root(text):has_error()
  found.trees[at] = root(text):sexpr()
end

local parse = vim.treesitter.query and vim.treesitter.query.parse or vim.treesitter.parse_query
local function captures(name)
  local query, list = parse("oberon0", read(vim.env.OB0_QUERIES .. "/" .. name .. ".scm")), {}
  for number, node in query:iter_captures(root(given.text), given.text, 0, -1) do
    local row, column, last, stop = node:range()
    table.insert(list, { query.captures[number], row, column, last, stop })
  end
  return list
end
for _, name in ipairs(given.queries) do
  found.captures[name] = captures(name)
end
local report = assert(io.open(vim.env.OB0_REPORT, "w"))
report:write(vim.fn.json_encode(found))
report:close()
vim.cmd("qall!")
