-- Gives each object of Sphinx's page a heading and its signature; a member of a class is one level lower.
local text = pandoc.utils.stringify
local function content(it) return it.content end
local function fenced(kind, code) return pandoc.RawBlock("markdown", "```" .. kind .. "\n" .. code .. "\n```") end

local function of_object(it)
  local signature = text(it[1]):gsub("→", "->")
  local name = signature:gsub("^%l+ ", ""):match("^[%w_]+")
  local function of_member(head) return pandoc.Header(4, name .. "." .. text(head)) end
  local body = pandoc.walk_block(pandoc.Div(it[2][1]), {Header = of_member})
  return pandoc.Div{pandoc.Header(3, name), fenced("text", signature), body}
end

local function tight(it) return pandoc.walk_block(it, {Para = function(para) return pandoc.Plain(para.content) end}) end
local function of_list(it) return it.content:map(of_object) end
local function of_session(it)
  return fenced(it.text:match("import dask") and "pycon needs=python3:dask,python3:pandas" or "pycon", it.text)
end

return {{BulletList = tight, CodeBlock = of_session, DefinitionList = of_list, Link = content, Span = content}, {Div = content}}
