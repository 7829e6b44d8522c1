-- What is typed or printed, as a page of the manual has it: hyphens are minus signs, quotation marks are straight, and no line of
-- it is a request.
local function literal(text)
    text = text:gsub("\\", "\\e"):gsub("-", "\\-"):gsub("'", "\\(aq"):gsub("%^", "\\(ha"):gsub("~", "\\(ti"):gsub("`", "\\(ga")
    return (("\n" .. text):gsub("\n%.", "\n\\&."):sub(2))
end

function Code(code)
    return pandoc.RawInline("man", "\\fB" .. literal(code.text) .. "\\fR")
end

function CodeBlock(block)
    return pandoc.RawBlock("man", ".PP\n.RS 4\n.nf\n" .. literal(block.text) .. "\n.fi\n.RE")
end

-- What is a page of this folder here is one of the manual there.
function Link(link)
    local name, section = link.target:match("man/(%w+)%.(%d)%.md")
    return name and pandoc.Str(name .. "(" .. section .. ")") or link.content
end
