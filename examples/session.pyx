schema	order.xsd
(xs:schema
Axmlns:xs http://www.w3.org/2001/XMLSchema
(xs:element
Aname order
(xs:complexType
(xs:sequence
(xs:element
Aname customer
Atype xs:string
)xs:element
(xs:choice
AmaxOccurs unbounded
(xs:element
Aname item
(xs:complexType
(xs:sequence
(xs:element
Aname name
Atype xs:string
)xs:element
(xs:sequence
AminOccurs 0
(xs:element
Aname note
Atype xs:string
)xs:element
)xs:sequence
)xs:sequence
)xs:complexType
)xs:element
(xs:element
Aname discount
Atype xs:string
)xs:element
)xs:choice
)xs:sequence
)xs:complexType
)xs:element
)xs:schema
document
(order
-\n  
(customer
-Jane Doe
)customer
-\n  
(item
(name
-Anvil
)name
)item
-\n  
(discount
-10 per cent
)discount
-\n  
(item
(note
-call first
)note
(name
-Rope
)name
)item
-\n
)order
edits
assess 13
remove 14
assess 1
end
