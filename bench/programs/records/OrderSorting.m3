MODULE OrderSorting = Sorting(Order) END OrderSorting.
