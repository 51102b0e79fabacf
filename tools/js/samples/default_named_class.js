export default class Named { static a = Named; }
