-- A small ERP with the bicycle shop in it, for the tests of tools/import and tools/export.
create table plant (start_of_plan date, weeks integer, workdays text);
create table closing_day (day date primary key, reason text);
create table material (
    number text primary key, description text, type text, lead_weeks integer, scrap_per_cent numeric(5, 2),
    lot_policy text, lot_size numeric(13, 3), safety_stock numeric(13, 3)
);
create table work_centre (code text primary key, hours_per_day numeric(6, 2));
create table stock (material text references material, warehouse text, quantity numeric(13, 3), is_blocked boolean);
create table purchase_line (purchase text, line integer, material text references material, due timestamp, open_quantity numeric(13, 3));
create table bill_line (position integer, parent text references material, component text references material, quantity numeric(13, 3));
create table operation (
    material text references material, number integer, work_centre text references work_centre,
    setup_minutes numeric(8, 2), minutes_per_piece numeric(10, 4)
);
create table master_row (position integer, material text references material, kind char(1), due date, quantity numeric(13, 3));
create table desk_call (position integer, desk integer, call text, material text, due date, quantity numeric(13, 3), number integer);

insert into plant values ('2025-01-06', 6, '1111100');
insert into closing_day values ('2025-01-20', 'stocktaking');
insert into material values
    ('BIKE', 'Fahrrad, 28 Zoll', 'FINISHED', 1, 0, 'EX', 0, 0),
    ('FRAME', 'Rahmen', 'MADE', 1, 10, 'FX', 20, 5),
    ('WHEEL', 'Rad', 'BOUGHT', 2, 0, 'P2', 2, 0);
insert into work_centre values ('WELD', 0.3333);
insert into stock values
    ('BIKE', 'A', 10, false), ('FRAME', 'A', 7, false), ('FRAME', 'B', 5, false), ('FRAME', 'B', 3, true), ('WHEEL', 'A', 30, false);
insert into purchase_line values ('R1', 1, 'FRAME', '2025-01-22 16:30', 15), ('R0', 1, 'FRAME', '2024-12-02 08:00', 0);
insert into bill_line values (1, 'BIKE', 'FRAME', 1), (2, 'BIKE', 'WHEEL', 2);
insert into operation values ('FRAME', 10, 'WELD', 30, 2.5);
insert into master_row values
    (1, 'BIKE', 'F', '2025-01-20', 20), (2, 'BIKE', 'F', '2025-02-03', 20), (3, 'BIKE', 'P', '2025-01-13', 8), (4, 'BIKE', 'P', '2025-01-27', 6);
insert into desk_call values
    (1, 1, 'book', 'BIKE', '2025-01-20', 12, null), (2, 1, 'book', 'BIKE', '2025-02-03', 25, null),
    (3, 2, 'ask', 'BIKE', '2025-01-06', null, null), (4, 2, 'book', 'BIKE', '2025-01-13', 15, null),
    (5, 2, 'book', 'BIKE', '2025-01-06', 10, null), (6, 1, 'ask', 'BIKE', '2025-01-20', null, null),
    (7, 1, 'run', null, null, null, null);
